//! The rows of checks/tables/answers.tsv, compared with what this crate gives for their texts, in each dialect. The head of
//! that table says how a row is spelled, and what each kind asks. `LP_ANSWERS` names the table, if this crate is a copy.
use influxdb_line_protocol::{
    parse_lines_in, rebuild, split_lines_in, Dialect, Error, EscapedStr, FieldValue, LineReader, LineWriter, ParsedLine,
};
use std::{
    borrow::Cow,
    collections::BTreeMap,
    env, fs,
    io::BufReader,
    num::{IntErrorKind, ParseIntError},
};

const TABLE: &str = concat!(env!("CARGO_MANIFEST_DIR"), "/../../checks/tables/answers.tsv");

fn text_of(cell: &str) -> String {
    let mut chars = cell.chars();
    let mut meant = || {
        Some(match chars.next()? {
            '\\' => match chars.next() {
                Some('n') => '\n',
                Some('t') => '\t',
                Some('r') => '\r',
                Some('0') => '\0',
                Some('\\') => '\\',
                _ => panic!("{cell:?} has an escape that means nothing"),
            },
            other => other,
        })
    };
    std::iter::from_fn(&mut meant).collect()
}

fn name(name: &EscapedStr<'_>) -> String {
    match name {
        EscapedStr::SingleSlice(text) => format!("S<{text}>"),
        EscapedStr::CopiedValue(text) => format!("C<{text}>"),
    }
}

fn value(value: &FieldValue<'_>) -> String {
    match value {
        FieldValue::I64(number) => format!("{number}i"),
        FieldValue::U64(number) => format!("{number}u"),
        FieldValue::F64(number) => format!("f<{number:?}>"),
        FieldValue::String(text) => name(text),
        FieldValue::Boolean(value) => value.to_string(),
    }
}

fn line(line: &ParsedLine<'_>) -> String {
    let tags = line.series.tag_set.iter().flatten().map(|(key, tag)| format!(",{}={}", name(key), name(tag)));
    let fields = line.field_set.iter().map(|(key, field)| format!(" {}={}", name(key), value(field)));
    let timestamp = line.timestamp.map(|timestamp| format!(" at {timestamp}"));
    [name(&line.series.measurement)].into_iter().chain(tags).chain(fields).chain(timestamp).collect()
}

fn number(fault: &str, source: &ParseIntError, value: &str) -> String {
    match source.kind() {
        IntErrorKind::PosOverflow => format!("{fault} Above <{value}>"),
        IntErrorKind::NegOverflow => format!("{fault} Below <{value}>"),
        other => panic!("{value} is {other:?}"),
    }
}

fn fault(fault: &Error) -> String {
    match fault {
        Error::MeasurementValueInvalid => "MeasurementValueInvalid".into(),
        Error::FieldSetMissing => "FieldSetMissing".into(),
        Error::IntegerValueInvalid { source, value } => number("IntegerValueInvalid", source, value),
        Error::UIntegerValueInvalid { source, value } => number("UIntegerValueInvalid", source, value),
        Error::TimestampValueInvalid { source, value } => number("TimestampValueInvalid", source, value),
        Error::EndsWithBackslash => "EndsWithBackslash".into(),
        Error::CannotParseEntireLine { trailing_content } => format!("rest <{trailing_content}>"),
        Error::TagSetMalformed => "TagSetMalformed".into(),
        Error::GenericParsingError { kind, .. } => format!("{kind:?}"),
        other => panic!("{other} is no fault of a text"),
    }
}

fn items(dialect: Dialect, text: &str) -> String {
    let items: Vec<_> =
        parse_lines_in(dialect, text).map(|item| item.map_or_else(|error| fault(&error), |read| line(&read))).collect();
    items.join("|")
}

// An answer with each float as the number that its literal spells: a field holds no more of it.
fn with_numbers(answer: &str) -> String {
    let mut parts = answer.split("=f<");
    let mut read = parts.next().expect("a text has a first part").to_owned();
    for part in parts {
        let (literal, rest) = part.split_once('>').expect("a float ends in '>'");
        read += &format!("=f<{:?}>{rest}", literal.parse::<f64>().expect("it is a literal"));
    }
    read
}

// How many items are written again, of how many, and what is written.
fn rebuilt(dialect: Dialect, text: &str) -> String {
    let rebuilt = rebuild(dialect, text);
    assert_eq!(rebuilt.carried, count_admitted(dialect, text), "{text:?}");
    format!("{} of {} <{}>", rebuilt.carried, rebuilt.carried + rebuilt.refused, rebuilt.batch)
}

// How many lines of a text are admitted. Just these are written by a `LineWriter`.
fn count_admitted(dialect: Dialect, text: &str) -> usize {
    let lines = parse_lines_in(dialect, text).flatten();
    let is_admitted = |line: &ParsedLine<'_>| {
        assert_eq!(LineWriter::new(dialect).write(line).is_ok(), line.is_admitted(dialect), "{text:?}");
        line.is_admitted(dialect)
    };
    lines.filter(is_admitted).count()
}

// The status of the program, which is 1 if an item is refused, and what it writes.
fn run(dialect: Dialect, text: &str) -> String {
    let rebuilt = rebuild(dialect, text);
    format!("{} <{}> <{}>", u8::from(rebuilt.refused > 0), rebuilt.batch, rebuilt.faults)
}

fn first(dialect: Dialect, text: &str) -> ParsedLine<'_> {
    parse_lines_in(dialect, text).next().expect("there is an item").expect("it is a line")
}

fn first_fault(dialect: Dialect, text: &str) -> String {
    parse_lines_in(dialect, text).next().expect("there is an item").expect_err("it is a fault").to_string()
}

fn base(line: ParsedLine<'_>) -> String {
    match line.series.generate_base() {
        Ok(Cow::Borrowed(base)) => format!("B<{base}>"),
        Ok(Cow::Owned(base)) => format!("O<{base}>"),
        Err(error) => error.to_string(),
    }
}

// The pieces of a text, which are those of the text when it is read by three bytes at once.
fn pieces(dialect: Dialect, text: &str) -> String {
    let reader = BufReader::with_capacity(3, text.as_bytes());
    let in_parts: Vec<_> = LineReader::new_in(reader, dialect, usize::MAX).map(|piece| piece.expect("it is a text").text).collect();
    assert!(in_parts.iter().eq(split_lines_in(dialect, text)), "{text:?}");
    in_parts.iter().map(|piece| format!("<{piece}>")).collect()
}

// What this crate gives for a text, or `None` if no call gives it.
fn answer(kind: &str, dialect: Dialect, text: &str) -> Option<String> {
    Some(match kind {
        "items" => items(dialect, text),
        "pieces" => pieces(dialect, text),
        "columns" => first(dialect, text).column_count().to_string(),
        "fault" => first_fault(dialect, text),
        "base" => base(first(dialect, text)),
        "key" => first(dialect, text).series.key(),
        "shown" => first(dialect, text).to_string(),
        "rebuilt" => rebuilt(dialect, text),
        "run" => run(dialect, text),
        "rests_of_pieces" | "rests_of_items" | "series" | "float" | "as_written" => return None,
        _ => panic!("{kind} is no kind that is known"),
    })
}

// So many rows of each kind, in words; each kind has as many as the table.
fn told(table: &str, rows: &BTreeMap<&str, usize>) -> String {
    let kinds: Vec<_> = rows.iter().map(|(kind, count)| format!("{count} {kind}")).collect();
    for (kind, count) in rows {
        assert_eq!(*count, table.matches(&format!("\n{kind}\t")).count(), "{kind}");
    }
    kinds.join(", ")
}

// Compares the answers of a row, one for each dialect that it has. `None`: no call gives them.
fn compare(row: &str) -> (&str, Option<usize>) {
    let cells: Vec<_> = row.split('\t').collect();
    let (kind, text) = (cells[0], text_of(cells[1]));
    let dialects = [Dialect::Crate, Dialect::Strict, Dialect::NewlineDelimited];
    assert!((3..=5).contains(&cells.len()), "{row:?} is no row");
    for (wanted, dialect) in cells[2..].iter().zip(dialects) {
        let Some(given) = answer(kind, dialect, &text) else { return (kind, None) };
        let wanted = text_of(wanted);
        assert_eq!(given, if kind == "items" { with_numbers(&wanted) } else { wanted }, "{row}");
    }
    (kind, Some(cells.len() - 2))
}

#[test]
fn each_row_has_its_answer() {
    let table = fs::read_to_string(env::var("LP_ANSWERS").unwrap_or(TABLE.into())).expect("LP_ANSWERS names the table");
    let (mut compared, mut passed_over, mut others) = (BTreeMap::new(), BTreeMap::new(), 0);
    for row in table.lines().filter(|line| !line.is_empty() && !line.starts_with('#')) {
        let (kind, answers) = compare(row);
        *if answers.is_some() { &mut compared } else { &mut passed_over }.entry(kind).or_insert(0) += 1;
        others += answers.map_or(0, |answers| answers - 1);
    }
    let (compared, passed_over) = (told(&table, &compared), told(&table, &passed_over));
    println!("answers.tsv: compared {compared}, and {others} answers in the other dialects; passed over {passed_over}");
}
