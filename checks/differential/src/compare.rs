//! What the crate gives for a text, and what this library reports.
//!
//! What the crate has no call for is compared too: a rebuild, a run and a relay, in parts of several sizes, must write the same in
//! each dialect; in the crate's, the lines that the crate's builder writes and the crate reads back, and the faults of all others.
//!
//! There is one known difference: a float is the text of its literal here, and a number there. So the literal is read as a
//! number where the crate has one, and put in the number's place where the crate shows or writes it.

use crate::calls::Literal;
use crate::ours::{Report, Written, CRATE};
use influxdb_line_protocol::{
    parse_lines, split_lines, Error, EscapedStr, FieldValue, LineProtocolBuilder, ParsedLine,
};
use std::borrow::Cow;
use std::num::{IntErrorKind, ParseIntError};

/// What is wrong, in words.
pub type Outcome<T> = Result<T, String>;

type Item<'a> = Result<ParsedLine<'a>, Error>;

fn must_equal(what: &str, ours: &str, theirs: &str) -> Outcome<()> {
    if ours == theirs {
        return Ok(());
    }
    let bytes = ours.bytes().zip(theirs.bytes());
    let same = bytes.take_while(|(here, there)| here == there).count();
    let (ours, theirs) = (around(ours, same), around(theirs, same));
    Err(format!("{what}:\n  here {ours:?}\n  there {theirs:?}"))
}

/// What a text has around a place: all of a short one.
pub fn around(text: &str, place: usize) -> Cow<'_, str> {
    const NEAR: usize = 1000;
    let end = text.len().min(place + NEAR);
    String::from_utf8_lossy(&text.as_bytes()[place.saturating_sub(NEAR)..end])
}

fn must_count(what: &str, ours: usize, theirs: usize) -> Outcome<()> {
    if ours == theirs {
        return Ok(());
    }
    Err(format!("{ours} {what} here and {theirs} there"))
}

// How many bytes come at a time to a relay: also a block, which is all that a read is given room for.
const PARTS: [usize; 3] = [1, 7, 1 << 16];

// The dialects, at their numbers.
const DIALECTS: [&str; 3] = ["crate's", "strict", "newline-delimited"];

// A run writes what was rebuilt.
fn must_write(rebuilt: &Report, written: &Written, what: &str, dialect: u32) -> Outcome<()> {
    let rules = DIALECTS[dialect as usize];
    let outputs = [("lines", written.out()), ("fault lines", written.err())];
    for (place, (name, ours)) in outputs.into_iter().enumerate() {
        let what = format!("the {name} of {what}, there of a rebuild, in the {rules} dialect");
        must_equal(&what, &String::from_utf8_lossy(ours), rebuilt.entry(place))?;
    }
    Ok(())
}

// What is left of an entry.
struct Told<'t>(&'t str);

impl<'t> Told<'t> {
    // Takes a text that must be here.
    fn take(&mut self, wanted: &str) -> Outcome<()> {
        match self.0.strip_prefix(wanted) {
            Some(rest) => {
                self.0 = rest;
                Ok(())
            }
            None => Err(format!("here is {:?} where {wanted:?} should be", self.0)),
        }
    }

    // Takes a text after its length.
    fn text(&mut self) -> Outcome<&'t str> {
        let (len, rest) = self.0.split_once(':').ok_or("no length")?;
        let len: usize = len.parse().map_err(|_| format!("no length: {len:?}"))?;
        if !rest.is_char_boundary(len) {
            return Err(format!("no text of {len} bytes in {rest:?}"));
        }
        let (text, rest) = rest.split_at(len);
        self.0 = rest;
        Ok(text)
    }

    fn name(&mut self, name: &EscapedStr<'_>) -> Outcome<()> {
        let letter = match name {
            EscapedStr::SingleSlice(_) => "S",
            EscapedStr::CopiedValue(_) => "C",
        };
        self.take(&format!("{letter}{}", counted(name.as_str())))
    }

    // A value; the literal of a float.
    fn value(&mut self, value: &FieldValue<'_>) -> Outcome<Option<&'t str>> {
        match value {
            FieldValue::I64(value) => self.take(&format!("i{value}"))?,
            FieldValue::U64(value) => self.take(&format!("u{value}"))?,
            FieldValue::Boolean(value) => self.take(&format!("{value}"))?,
            FieldValue::String(value) => {
                self.take("s")?;
                self.name(value)?;
            }
            FieldValue::F64(value) => {
                self.take("f")?;
                let literal = self.text()?;
                let number: f64 = literal
                    .parse()
                    .map_err(|_| format!("{literal:?} is no number"))?;
                must_equal(
                    "a float",
                    &format!("{:x}", number.to_bits()),
                    &format!("{:x}", value.to_bits()),
                )?;
                return Ok(Some(literal));
            }
        }
        Ok(None)
    }
}

// A text after its length.
fn counted(text: &str) -> String {
    format!("{}:{text}", text.len())
}

fn side(source: &ParseIntError) -> &'static str {
    match source.kind() {
        IntErrorKind::PosOverflow => "Above",
        IntErrorKind::NegOverflow => "Below",
        _ => "neither",
    }
}

// A fault, as `crates/lp_checks` tells it: what is shown of it, after the side of its range on which a number lies.
fn told_fault(fault: &Error) -> String {
    match fault {
        Error::IntegerValueInvalid { source, .. }
        | Error::UIntegerValueInvalid { source, .. }
        | Error::TimestampValueInvalid { source, .. } => format!("{} {fault}", side(source)),
        _ => fault.to_string(),
    }
}

// A line against what is told of it. The literals of its floats come back, in order.
fn compare_line<'t>(text: &str, line: &ParsedLine<'_>, told: &'t str) -> Outcome<Vec<&'t str>> {
    let mut told = Told(told);
    told.take("line ")?;
    let raw = told.text()?;
    let debug = format!("{:?}", line.series);
    let wanted = format!("Series {{ raw_input: {raw:?}, measurement: ");
    if !debug.starts_with(&wanted) {
        return Err(format!(
            "the raw text is {raw:?} here, and there it is in {debug}"
        ));
    }
    told.take(" ")?;
    told.name(&line.series.measurement)?;
    for (key, value) in line.series.tag_set.iter().flatten() {
        told.take(",")?;
        told.name(key)?;
        told.take("=")?;
        told.name(value)?;
    }
    let mut literals = Vec::new();
    for (key, value) in &line.field_set {
        told.take(" ")?;
        told.name(key)?;
        told.take("=")?;
        literals.extend(told.value(value)?);
    }
    if let Some(timestamp) = line.timestamp {
        told.take(&format!(" at {timestamp}"))?;
    }
    must_equal("the end of a line", told.0, "")?;
    match literals
        .iter()
        .find(|literal| !text.contains(&format!("={literal}")))
    {
        Some(literal) => Err(format!("{literal:?} is not in the text")),
        None => Ok(literals),
    }
}

// The line with each float as the text of its literal, which the crate shows as it is.
fn with_literals<'t>(mut line: ParsedLine<'t>, literals: &[&'t str]) -> ParsedLine<'t> {
    let mut literals = literals.iter();
    for (_, value) in &mut line.field_set {
        if let FieldValue::F64(_) = value {
            *value =
                FieldValue::String((*literals.next().expect("a literal for each float")).into());
        }
    }
    line
}

fn compare_shown(shown: &Report, place: &mut usize, item: &Item<'_>) -> Outcome<()> {
    let mut wanted = Vec::new();
    match item {
        Ok(line) => {
            wanted.push(line.to_string());
            wanted.push(line.series.to_string());
            wanted.extend(line.field_set.iter().map(|(_, value)| value.to_string()));
        }
        Err(fault) => wanted.push(fault.to_string()),
    }
    for wanted in wanted {
        if *place >= shown.count() {
            return Err("less is shown here".into());
        }
        must_equal("what is shown", shown.entry(*place), &wanted)?;
        *place += 1;
    }
    Ok(())
}

fn compare_base(base: &str, item: Item<'_>) -> Outcome<()> {
    let wanted = match item.and_then(|line| line.series.generate_base()) {
        Ok(Cow::Borrowed(base)) => format!("borrowed {}", counted(base)),
        Ok(Cow::Owned(base)) => format!("owned {}", counted(&base)),
        Err(fault) => told_fault(&fault),
    };
    must_equal("the base", base, &wanted)
}

macro_rules! write_field {
    ($builder:expr, $key:expr, $value:expr, $literals:expr) => {
        match $value {
            FieldValue::I64(value) => $builder.field($key, *value),
            FieldValue::U64(value) => $builder.field($key, *value),
            FieldValue::Boolean(value) => $builder.field($key, *value),
            FieldValue::String(value) => $builder.field($key, value.as_str()),
            FieldValue::F64(_) => $builder.field(
                $key,
                Literal($literals.next().expect("a literal for each float")),
            ),
        }
    };
}

// The line, by the calls of the crate's builder.
fn write_line(line: &ParsedLine<'_>, literals: &[&str]) -> Outcome<String> {
    let mut literals = literals.iter();
    let mut begun = LineProtocolBuilder::new().measurement(line.series.measurement.as_str());
    for (key, value) in line.series.tag_set.iter().flatten() {
        begun = begun.tag(key.as_str(), value.as_str());
    }
    let (key, value) = &line.field_set[0];
    let mut fielded = write_field!(begun, key.as_str(), value, literals);
    for (key, value) in &line.field_set[1..] {
        fielded = write_field!(fielded, key.as_str(), value, literals);
    }
    let built = match line.timestamp {
        Some(timestamp) => fielded.timestamp(timestamp).close_line(),
        None => fielded.close_line(),
    };
    String::from_utf8(built.build()).map_err(|_| "the crate's line is not UTF-8".into())
}

// Whether the crate reads back what its builder writes for a line.
fn reads_back(line: &ParsedLine<'_>, built: &str) -> bool {
    let mut read = parse_lines(built);
    let (Some(Ok(back)), None) = (read.next(), read.next()) else {
        return false;
    };
    back.series.measurement == line.series.measurement
        && back.series.tag_set.as_deref() == line.series.tag_set.as_deref()
        && back.field_set[..] == line.field_set[..]
        && back.timestamp == line.timestamp
}

// What a rebuild must write for a text, by the crate's calls.
#[derive(Default)]
struct Wanted {
    // All lines, written again.
    lines: String,
    // Those that read back, and a fault line for each other item.
    batch: String,
    faults: String,
    carried: usize,
    refused: usize,
    // How many lines the text has as they are written again.
    written: usize,
}

impl Wanted {
    fn add_line(&mut self, piece: &str, line: &ParsedLine<'_>, built: &str) {
        self.lines += built;
        self.written += usize::from(built.strip_suffix('\n') == Some(piece));
        if reads_back(line, built) {
            self.batch += built;
            self.carried += 1;
        } else {
            self.add_fault("a name cannot be written again");
        }
    }

    fn add_fault(&mut self, fault: &str) {
        self.refused += 1;
        let number = self.carried + self.refused;
        self.faults += &format!("item {number}: {fault}\n");
    }
}

// An item against what is told of it. It comes back with each float as the text of its literal.
fn compare_item<'t>(
    piece: &str,
    item: Item<'t>,
    told: &'t str,
    wanted: &mut Wanted,
) -> Outcome<Item<'t>> {
    match item {
        Ok(line) => {
            let literals = compare_line(piece, &line, told)?;
            wanted.add_line(piece, &line, &write_line(&line, &literals)?);
            Ok(Ok(with_literals(line, &literals)))
        }
        Err(fault) => {
            must_equal("a fault", told, &told_fault(&fault))?;
            wanted.add_fault(&fault.to_string());
            Ok(Err(fault))
        }
    }
}

/// How many items a text has, and how many of them are lines as the builder writes them.
#[derive(Default)]
pub struct Counts {
    pub items: usize,
    pub written: usize,
}

impl Counts {
    pub fn add(&mut self, more: Counts) {
        self.items += more.items;
        self.written += more.written;
    }
}

/// What is reported of one text, in buffers that serve again.
pub struct Reports {
    pieces: Report,
    items: Report,
    events: Report,
    blocks: Report,
    bases: Report,
    shown: Report,
    written: Report,
    rebuilt: Report,
    run: Written,
}

impl Reports {
    pub fn new() -> Self {
        Reports {
            pieces: Report::new(),
            items: Report::new(),
            events: Report::new(),
            blocks: Report::new(),
            bases: Report::new(),
            shown: Report::new(),
            written: Report::new(),
            rebuilt: Report::new(),
            run: Written::new(),
        }
    }

    // The pieces that are not blank come back, one for each item.
    fn compare_pieces<'t>(&mut self, text: &'t str) -> Outcome<Vec<&'t str>> {
        let pieces = self.pieces.pieces(text);
        let theirs: Vec<&str> = split_lines(text).collect();
        must_count("pieces", pieces.count(), theirs.len())?;
        for (place, piece) in theirs.iter().enumerate() {
            must_equal("a piece", pieces.entry(place), piece)?;
        }
        let has_item = |piece: &&str| parse_lines(piece).next().is_some();
        Ok(theirs.into_iter().filter(has_item).collect())
    }

    // A run, and relays of the text in parts, write what is rebuilt.
    fn compare_runs(&mut self, dialect: u32, text: &str) -> Outcome<()> {
        let rebuilt = self.rebuilt.rebuild(dialect, text);
        must_write(rebuilt, self.run.run(dialect, text), "a run", dialect)?;
        for part in PARTS {
            let what = format!("a relay in parts of {part} bytes");
            must_write(rebuilt, self.run.relay(dialect, text, part), &what, dialect)?;
        }
        Ok(())
    }

    // What is rebuilt is what must be written, in the crate's dialect, and runs and relays write what is rebuilt, in each.
    fn compare_rebuilt(&mut self, text: &str, wanted: &Wanted) -> Outcome<()> {
        let rebuilt = self.rebuilt.rebuild(CRATE, text);
        must_count("parts of what is rebuilt", rebuilt.count(), 3)?;
        must_equal("the batch", rebuilt.entry(0), &wanted.batch)?;
        must_equal("the fault lines", rebuilt.entry(1), &wanted.faults)?;
        let counts = format!("{} carried, {} refused", wanted.carried, wanted.refused);
        must_equal("the counts", rebuilt.entry(2), &counts)?;
        (0..).take(DIALECTS.len()).try_for_each(|dialect| self.compare_runs(dialect, text))
    }

    /// Compares all that both give for a text: its pieces, and of each item what was read, what is told of it, its base, what
    /// is shown of it and what is written; and what is rebuilt of the text.
    pub fn compare(&mut self, text: &str) -> Outcome<Counts> {
        let pieces = self.compare_pieces(text)?;
        let theirs: Vec<Item<'_>> = parse_lines(text).collect();
        let items = self.items.items(text);
        let events = self.events.events(text);
        let blocks = self.blocks.blocks(text);
        let bases = self.bases.bases(text);
        let shown = self.shown.shown(text);
        let written = self.written.written(text);
        must_count("items", items.count(), theirs.len())?;
        must_count("items by events", events.count(), theirs.len())?;
        must_count("items in blocks", blocks.count(), theirs.len())?;
        assert_eq!(
            pieces.len(),
            theirs.len(),
            "the crate finds an item in each piece that is not blank"
        );
        must_count("bases", bases.count(), theirs.len())?;
        let mut shown_place = 0;
        let mut wanted = Wanted::default();
        for (place, (item, piece)) in theirs.into_iter().zip(pieces).enumerate() {
            let told = items.entry(place);
            must_equal("an item by its events", events.entry(place), told)?;
            must_equal("an item of a block", blocks.entry(place), told)?;
            let item = compare_item(piece, item, told, &mut wanted)?;
            compare_shown(shown, &mut shown_place, &item)?;
            compare_base(bases.entry(place), item)?;
        }
        must_count("texts shown", shown.count(), shown_place)?;
        must_count("batches", written.count(), 1)?;
        must_equal("the lines written again", written.entry(0), &wanted.lines)?;
        let counts = Counts {
            items: items.count(),
            written: wanted.written,
        };
        self.compare_rebuilt(text, &wanted)?;
        Ok(counts)
    }
}
