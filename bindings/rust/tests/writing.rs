//! What the builder writes, where the original crate's tests look less closely; and what a writer of lines writes and refuses.
//! Which names are admitted, and what is written, are those of docs/FORMAT.md, sections 13 and 14.
use influxdb_line_protocol::{
    builder, parse_lines, Dialect, EscapedStr, FieldValue, LineProtocolBuilder, LineReader, LineWriter, NotAdmitted, ParsedLine,
};
use std::{error::Error, fmt};

struct Hex(u8);

impl builder::FieldValue for Hex {
    fn fmt(&self, f: &mut fmt::Formatter<'_>) -> fmt::Result {
        write!(f, "\"{:02x}\"", self.0)
    }
}

fn text(lines: Vec<u8>) -> String {
    String::from_utf8(lines).expect("lines are UTF-8")
}

#[test]
fn each_part_has_its_escapes() {
    let lines = LineProtocolBuilder::new()
        .measurement("m, =\"\\")
        .tag("k, =\"\\", "v, =\"\\")
        .field("f, =\"\\", "s, =\"\\")
        .field("g", -1i64)
        .field("h", 2u64)
        .field("i", true)
        .timestamp(-9)
        .close_line()
        .build();
    assert_eq!(
        text(lines),
        "m\\,\\ =\"\\\\,k\\,\\ \\=\"\\\\=v\\,\\ \\=\"\\\\ f\\,\\ \\=\"\\\\=\"s, =\\\"\\\\\",g=-1i,h=2u,i=true -9\n"
    );
}

// Every text of so many of these characters.
fn texts(len: usize) -> Vec<String> {
    let longer = |text: String| [',', '=', ' ', '"', '\\', 'a', 'é'].map(|character| format!("{text}{character}"));
    (0..len).fold(vec![String::new()], |texts, _| texts.into_iter().flat_map(longer).collect())
}

// A text with a backslash before each of these characters.
fn escaped(text: &str, special: &str) -> String {
    text.chars().flat_map(|one| special.contains(one).then_some('\\').into_iter().chain([one])).collect()
}

#[test]
fn every_short_text_has_just_its_escapes_and_reads_back() {
    for text in (1..=4).flat_map(texts).filter(|text| !text.ends_with('\\')) {
        let text = text.as_str();
        let built = LineProtocolBuilder::new().measurement(text).tag(text, text).field(text, text).close_line().build();
        let written = String::from_utf8(built).expect("lines are UTF-8");
        let [measurement, name, string] = [", \\", ",= \\", "\"\\"].map(|special| escaped(text, special));
        assert_eq!(written, format!("{measurement},{name}={name} {name}=\"{string}\"\n"));
        let line = parse_lines(&written).next().expect("there is an item").expect("it is a line");
        assert_eq!(line.series.measurement, text, "{written}");
        assert_eq!(line.tag_value(text), Some(&EscapedStr::from(text)), "{written}");
        assert_eq!(line.field_value(text), Some(&FieldValue::String(EscapedStr::from(text))), "{written}");
    }
}

#[test]
fn floats_that_are_no_literals_and_values_of_other_types_are_written() {
    let line = LineProtocolBuilder::new().measurement("m").field("f", f64::NAN).field("g", f64::INFINITY).field("h", Hex(10));
    assert_eq!(text(line.close_line().build()), "m f=NaN,g=inf,h=\"0a\"\n");
}

#[test]
fn long_texts_have_each_escape() {
    let long = "a b".repeat(500);
    let lines = LineProtocolBuilder::new().measurement(&long).tag("k", &long).field(&long, long.as_str()).close_line();
    let escaped = long.replace(' ', "\\ ");
    assert_eq!(text(lines.build()), format!("{escaped},k={escaped} {escaped}=\"{long}\"\n"));
}

#[test]
fn lines_go_after_what_a_buffer_holds() {
    let first = LineProtocolBuilder::new().measurement("a").field("f", 1.5).close_line().build();
    let both = LineProtocolBuilder::new_with(first).measurement("b").field("f", 1e21).close_line().build();
    assert_eq!(text(both), "a f=1.5\nb f=1000000000000000000000\n");
}

#[test]
#[should_panic]
fn a_buffer_without_room_panics() {
    let mut bytes = [0u8; 4];
    let _ = LineProtocolBuilder::new_with(&mut bytes[..]).measurement("measurement");
}

const DIALECTS: [Dialect; 3] = [Dialect::Crate, Dialect::Strict, Dialect::NewlineDelimited];
const ONE: [(&str, FieldValue<'_>); 1] = [("f", FieldValue::I64(1))];

// A point with a name in one place, and other names that are admitted in the others.
#[derive(Clone, Copy, Debug, PartialEq)]
enum Place {
    Measurement,
    TagKey,
    TagValue,
    FieldKey,
}

const PLACES: [Place; 4] = [Place::Measurement, Place::TagKey, Place::TagValue, Place::FieldKey];

impl Place {
    // Measurement, tag key, tag value and field key of the point.
    fn names(self, name: &str) -> [&str; 4] {
        PLACES.map(|place| if place == self { name } else { "n" })
    }

    fn write(self, lines: &mut LineWriter, name: &str) -> Result<(), NotAdmitted> {
        let [measurement, tag_key, tag_value, field_key] = self.names(name);
        lines.write_point(measurement, &[(tag_key, tag_value)], &[(field_key, FieldValue::I64(1))], Some(5))
    }

    // What the builder writes for the point.
    fn built(self, name: &str) -> Vec<u8> {
        let [measurement, tag_key, tag_value, field_key] = self.names(name);
        let line = LineProtocolBuilder::new().measurement(measurement).tag(tag_key, tag_value).field(field_key, 1i64);
        line.timestamp(5).close_line().build()
    }

    // The refusal of this name here, and how its message begins.
    fn refusal(self, name: &str) -> (NotAdmitted, String) {
        let (text, tag_key) = (name.to_owned(), "n".to_owned());
        match self {
            Self::Measurement => (NotAdmitted::Measurement { measurement: text }, format!("the measurement {name:?} is not")),
            Self::TagKey => (NotAdmitted::TagKey { tag_key: text }, format!("the tag key {name:?} is not")),
            Self::TagValue => {
                (NotAdmitted::TagValue { tag_key, tag_value: text }, format!("the value {name:?} of the tag \"n\" is not"))
            }
            Self::FieldKey => (NotAdmitted::FieldKey { field_key: text }, format!("the field key {name:?} is not")),
        }
    }

    // By section 13.
    fn is_admitted(self, name: &str) -> bool {
        let as_any = !name.is_empty() && !name.contains(['\t', '\n']) && !name.ends_with('\\');
        as_any && (self != Self::Measurement || !name.contains('\0') && !name.starts_with('#'))
    }
}

// The lines of a text, all of which are lines.
fn lines_of(text: &[u8]) -> Vec<ParsedLine<'_>> {
    let text = std::str::from_utf8(text).expect("lines are UTF-8");
    parse_lines(text).map(|item| item.unwrap_or_else(|fault| panic!("{text:?}: {fault}"))).collect()
}

#[test]
fn a_name_that_is_not_admitted_is_named_and_nothing_is_written() {
    let any = ["", "a\nb", "a\n", "\nb f=1", "a\tb", "\t", "a\\", "\\", "a\\\\", "a\\\nb", "\u{e9}\n"];
    let first = ["#", "#a", "a\0b", "\0"];
    for dialect in DIALECTS {
        for place in PLACES {
            let refused = any.iter().chain(first.iter().filter(|_| place == Place::Measurement));
            let mut lines = LineWriter::new(dialect);
            let mut written = vec![];
            for name in refused {
                let refusal = place.write(&mut lines, name).expect_err(name);
                let (wanted, begin) = place.refusal(name);
                assert_eq!(refusal, wanted);
                assert!(refusal.to_string().starts_with(&begin), "{refusal}");
                assert_eq!(lines.as_bytes(), written, "{place:?} {name:?}");
                lines.write_point("next", &[], &ONE, None).expect("it is admitted");
                written.extend_from_slice(b"next f=1i\n");
                assert_eq!(lines.as_bytes(), written, "{place:?} {name:?}");
            }
            assert_eq!(lines_of(&lines.into_bytes()).len(), written.len() / "next f=1i\n".len());
        }
    }
}

#[test]
fn every_short_name_is_written_and_reads_back_if_it_is_admitted_and_else_refused() {
    let characters = [',', '=', ' ', '"', '\\', 'a', 'é', '\n', '\t', '#', '\0'];
    let longer = |text: String| characters.map(|character| format!("{text}{character}"));
    let mut names = vec![String::new()];
    for _ in 0..3 {
        names = names.into_iter().flat_map(longer).collect::<Vec<_>>().into_iter().chain([String::new()]).collect();
    }
    for dialect in DIALECTS {
        for place in PLACES {
            for name in &names {
                let mut lines = LineWriter::new(dialect);
                let written = place.write(&mut lines, name);
                assert_eq!(written.is_ok(), place.is_admitted(name), "{place:?} {name:?}");
                if written.is_err() {
                    assert_eq!(written, Err(place.refusal(name).0));
                    assert_eq!(lines.as_bytes(), b"");
                    continue;
                }
                let bytes = lines.into_bytes();
                assert_eq!(bytes, place.built(name));
                let [line] = &lines_of(&bytes)[..] else { panic!("{name:?} is written as {bytes:?}") };
                let [measurement, tag_key, tag_value, field_key] = place.names(name);
                assert_eq!(line.series.measurement, measurement);
                assert_eq!(line.series.tag_set.iter().flatten().count(), 1);
                assert_eq!(line.tag_value(tag_key), Some(&EscapedStr::from(tag_value)));
                assert_eq!((line.field_set.len(), line.field_value(field_key)), (1, Some(&FieldValue::I64(1))));
                assert_eq!(line.timestamp, Some(5));
                let pieces: Vec<_> = LineReader::new_in(&bytes[..], dialect, usize::MAX).map(Result::unwrap).collect();
                assert_eq!(pieces.len(), 2, "one line, and what comes after its newline");
            }
        }
    }
}

#[test]
fn the_first_name_that_is_not_admitted_is_named() {
    let mut lines = LineWriter::new(Dialect::Strict);
    let one = |key| [(key, FieldValue::Boolean(true))];
    let refusals = [
        lines.write_point("", &[("", "")], &one(""), None),
        lines.write_point("m", &[("k", "v"), ("", "w\n"), ("", "")], &one(""), None),
        lines.write_point("m", &[("k", "v"), ("l", "w\n"), ("", "")], &one(""), None),
        lines.write_point("m", &[("k", "v")], &[("f", FieldValue::U64(1)), ("g\t", FieldValue::U64(1))], None),
    ];
    let wanted = [
        NotAdmitted::Measurement { measurement: "".into() },
        NotAdmitted::TagKey { tag_key: "".into() },
        NotAdmitted::TagValue { tag_key: "l".into(), tag_value: "w\n".into() },
        NotAdmitted::FieldKey { field_key: "g\t".into() },
    ];
    assert_eq!(refusals.map(Result::unwrap_err), wanted);
    assert_eq!(lines.into_bytes(), b"");
}

#[test]
fn a_line_without_a_field_and_a_float_without_a_literal_are_refused() {
    let mut lines = LineWriter::new(Dialect::Crate);
    lines.write_point("m", &[], &ONE, Some(-1)).expect("it is admitted");
    let refusal = lines.write_point("m", &[("k", "v")], &[], None).unwrap_err();
    assert_eq!(refusal, NotAdmitted::NoField { measurement: "m".into() });
    assert_eq!(refusal.to_string(), "the line of the measurement \"m\" has no field");
    for float in [f64::NAN, f64::INFINITY, f64::NEG_INFINITY] {
        let fields = [("f", FieldValue::F64(1.0)), ("g", FieldValue::F64(float))];
        let refusal: Box<dyn Error> = lines.write_point("m", &[], &fields, None).unwrap_err().into();
        assert_eq!(refusal.to_string(), format!("the value {float} of the field \"g\" has no literal"));
    }
    assert_eq!(lines.into_bytes(), b"m f=1i -1\n");
}

#[test]
fn every_value_is_written_and_reads_back() {
    let strings = ["", "a\nb", "\n", "\"", "\\", "a\"\n\\", "\t#\0,= é", "\"\nm f=1"];
    let floats = [0.0, -0.0, 1.0, 0.1, -2.5e-7, 1e21, f64::MAX, f64::MIN_POSITIVE, 5e-324];
    let values = strings.into_iter().map(|text| FieldValue::String(text.into()));
    let values = values.chain(floats.into_iter().map(FieldValue::F64));
    let values = values.chain([i64::MIN, 0, i64::MAX].map(FieldValue::I64)).chain([0, u64::MAX].map(FieldValue::U64));
    let mut fields: Vec<_> = values.chain([true, false].map(FieldValue::Boolean)).map(|value| ("f", value)).collect();
    for dialect in DIALECTS {
        if dialect == Dialect::NewlineDelimited {
            fields.retain(|(_, value)| !matches!(value, FieldValue::String(text) if text.as_str().contains('\n')));
        }
        let mut lines = LineWriter::new(dialect);
        for field in &fields {
            lines.write_point("m", &[], std::slice::from_ref(field), None).expect("it is admitted");
        }
        lines.write_point("m", &[], &fields, Some(i64::MIN)).expect("it is admitted");
        let bytes = lines.into_bytes();
        let read = lines_of(&bytes);
        assert_eq!(read.len(), fields.len() + 1);
        let all = read.iter().flat_map(|line| &line.field_set);
        for ((key, value), (wanted_key, wanted)) in all.zip(fields.iter().chain(&fields)) {
            assert_eq!((key.as_str(), value), (*wanted_key, wanted));
            assert_eq!(format!("{value:?}").contains("-0.0"), format!("{wanted:?}").contains("-0.0"), "which are equal numbers");
        }
        assert_eq!(read[fields.len()].timestamp, Some(i64::MIN));
    }
    let fields = [("f", FieldValue::I64(1)), ("g", FieldValue::String("a\nb".into()))];
    for dialect in [Dialect::Crate, Dialect::Strict] {
        let mut lines = LineWriter::new(dialect);
        lines.write_point("m", &[], &fields, None).expect("it is admitted");
        assert_eq!(lines.as_bytes(), b"m f=1i,g=\"a\nb\"\n");
    }
    let mut lines = LineWriter::new(Dialect::NewlineDelimited);
    let refused = lines.write_point("m", &[], &fields, None).unwrap_err();
    assert_eq!(refused, NotAdmitted::String { field_key: "g".into(), value: "a\nb".into() });
    assert_eq!(refused.to_string(), r#"the value "a\nb" of the field "g" is not admitted: it may not hold a newline"#);
    assert_eq!(lines.as_bytes(), b"");
}

#[test]
fn a_line_of_hostile_text_is_written_anew_or_refused() {
    let hostile = "w\\\t f=1i\nm,a\\\nb=c f=1i\nm,k=v\\\nx,l=w f=1i\nm a\\\tb=1i\nm\\\0 f=1i\nm f=-1e400\n\\wea\\ther f=1i\n\\#,k=\\v s=\"a\\b\nm f=1\" 07";
    let mut lines = LineWriter::new(Dialect::Strict);
    let refusals: Vec<_> = lines_of(hostile.as_bytes()).iter().filter_map(|line| lines.write(line).err()).collect();
    let wanted = [
        NotAdmitted::Measurement { measurement: "w\\\t".into() },
        NotAdmitted::TagKey { tag_key: "a\\\nb".into() },
        NotAdmitted::TagValue { tag_key: "k".into(), tag_value: "v\\\nx".into() },
        NotAdmitted::FieldKey { field_key: "a\\\tb".into() },
        NotAdmitted::Measurement { measurement: "m\\\0".into() },
        NotAdmitted::Float { field_key: "f".into(), value: f64::NEG_INFINITY },
    ];
    assert_eq!(refusals, wanted);
    assert_eq!(text_of(&lines), "\\\\wea\\\\ther f=1i\n\\\\#,k=\\\\v s=\"a\\\\b\nm f=1\" 7\n");
    // What the builder writes for this tag value is read as a line of another measurement.
    let forged = text(Place::TagValue.built("v\nforged"));
    assert!(parse_lines(&forged).flatten().any(|line| line.series.measurement == "forged"));
    assert!(Place::TagValue.write(&mut lines, "v\nforged").is_err());
}

fn text_of(lines: &LineWriter) -> &str {
    std::str::from_utf8(lines.as_bytes()).expect("lines are UTF-8")
}

#[test]
fn a_line_that_was_changed_is_written_as_it_is_now() {
    let mut line = parse_lines("m,k=v f=1i 5").next().expect("there is an item").expect("it is a line");
    line.series.measurement = "n,o".into();
    line.series.tag_set = None;
    line.field_set.push((EscapedStr::CopiedValue("g h".into()), FieldValue::String("\"".into())));
    line.timestamp = None;
    let mut lines = LineWriter::new(Dialect::Crate);
    lines.write(&line).expect("it is admitted");
    line.field_set.clear();
    assert_eq!(lines.write(&line), Err(NotAdmitted::NoField { measurement: "n,o".into() }));
    assert_eq!(text_of(&lines), "n\\,o f=1i,g\\ h=\"\\\"\"\n");
}

#[test]
fn lines_of_any_length_follow_one_another_and_a_cleared_writer_begins_anew() {
    let long = "a b".repeat(100_000);
    let many: Vec<_> = (0..1000).map(|number| format!("k{number}")).collect();
    let tags: Vec<_> = many.iter().map(|key| (key.as_str(), "v")).collect();
    let all: String = many.iter().map(|key| format!(",{key}=v")).collect();
    let mut lines = LineWriter::new(Dialect::Strict);
    let mut wanted = String::new();
    for number in 0..300 {
        lines.write_point("m", &[("k", "v")], &[("f", FieldValue::I64(number))], None).expect("it is admitted");
        wanted += &format!("m,k=v f={number}i\n");
    }
    lines.write_point(&long, &[], &ONE, None).expect("it is admitted");
    lines.write_point("m", &tags, &ONE, None).expect("it is admitted");
    wanted += &format!("{} f=1i\nm{all} f=1i\n", long.replace(' ', "\\ "));
    assert!(text_of(&lines) == wanted);
    let refused = lines.write_point(&long, &tags, &[("\n", FieldValue::I64(1))], None);
    assert_eq!(refused, Err(NotAdmitted::FieldKey { field_key: "\n".into() }));
    assert!(text_of(&lines) == wanted);
    lines.clear();
    assert_eq!(lines.as_bytes(), b"");
    lines.write_point("m", &[], &ONE, None).expect("it is admitted");
    assert_eq!(lines.into_bytes(), b"m f=1i\n");
}
