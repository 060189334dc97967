//! The rows of checks/portable_rows.txt: what servers make of texts, and which clauses an oracle says that these break. The head of that
//! table says how a row is spelled. `LP_PORTABLE` names the table, if this crate is a copy.
use influxdb_line_protocol::{
    broken_clauses, is_portable, Broken, Clause, Dialect, FieldValue, Limits, LineWriter, Servers,
};
use std::{env, fs};

const TABLE: &str = concat!(env!("CARGO_MANIFEST_DIR"), "/../../checks/portable_rows.txt");

/// The rows were measured at such a time, and VictoriaMetrics keeps no timestamp that comes two days later.
const MEASURED: Limits = Limits { line: 262_144, tags: 29, earliest: 1_000_000, latest: 1_796_100_000_000_000_000 };

/// A cell with each `{TEXT*COUNT}` written out.
fn written_out(cell: &str) -> String {
    let Some((before, rest)) = cell.split_once('{') else { return cell.to_owned() };
    let (inside, after) = rest.split_once('}').unwrap();
    let (text, count) = inside.rsplit_once('*').unwrap();
    let count: usize = count.parse().unwrap();
    let width = (count - 1).to_string().len();
    let many: String = (0..count).map(|at| text.replace('@', &format!("{at:0width$}"))).collect();
    format!("{before}{many}{}", written_out(after))
}

/// The bytes that a cell stands for.
fn bytes_of(cell: &str) -> Vec<u8> {
    let (cell, mut bytes) = (written_out(cell), vec![]);
    let mut left = cell.bytes();
    while let Some(byte) = left.next() {
        bytes.push(match (byte, if byte == b'\\' { left.next() } else { None }) {
            (_, None) => byte,
            (_, Some(b'n')) => b'\n',
            (_, Some(b't')) => b'\t',
            (_, Some(b'r')) => b'\r',
            (_, Some(b'0')) => 0,
            (_, Some(b'\\')) => b'\\',
            (_, Some(b'x')) => {
                let digits: String = left.by_ref().take(2).map(char::from).collect();
                u8::from_str_radix(&digits, 16).unwrap()
            }
            (_, Some(other)) => panic!("\\{} means nothing", char::from(other)),
        });
    }
    bytes
}

/// A row: its text, its bits, and what each server and its parser make of the text.
struct Row {
    text: String,
    bits: u64,
    told: Vec<String>,
}

/// The rows whose texts are UTF-8, and how many others there are.
fn rows() -> (Vec<Row>, usize) {
    let table = fs::read_to_string(env::var("LP_PORTABLE").unwrap_or(TABLE.into())).unwrap();
    let (mut rows, mut others) = (vec![], 0);
    for row in table.lines().filter(|row| !row.is_empty() && !row.starts_with('#')) {
        let cells: Vec<_> = row.split('\t').collect();
        match String::from_utf8(bytes_of(cells[1])) {
            Ok(text) => rows.push(Row {
                text,
                bits: cells[2].parse().unwrap(),
                told: cells[3..].iter().map(|word| (*word).to_owned()).collect(),
            }),
            Err(_) => others += 1,
        }
    }
    (rows, others)
}

#[test]
fn each_row_breaks_what_the_oracle_says() {
    let (rows, others) = rows();
    for row in &rows {
        let bits = broken_clauses(&Limits::default(), &row.text).map_or(1, Broken::bits);
        assert_eq!(bits, row.bits, "{:.80?}", row.text);
    }
    assert!(rows.len() > 200 && others < 5, "{} rows, and {others} that are not UTF-8", rows.len());
}

#[test]
fn what_is_portable_the_servers_read_so() {
    let (mut portable, mut not) = ([0; 2], [0; 2]);
    for row in rows().0 {
        for (at, servers) in [Servers::Influx1, Servers::Victoria].into_iter().enumerate() {
            let is_same = row.told[2 * at..2 * at + 2].iter().all(|word| word == "same");
            let is_portable = is_portable(servers, &MEASURED, &row.text);
            assert!(is_same || !is_portable, "{servers:?} {:.80?}", row.text);
            portable[at] += usize::from(is_portable);
            not[at] += usize::from(!is_same);
        }
    }
    assert!(portable.iter().chain(&not).all(|count| *count > 50), "{portable:?} {not:?}");
}

#[test]
fn the_bits_of_a_row_are_its_clauses() {
    assert!(Clause::ALL.iter().zip(1..).all(|(clause, place)| *clause as u8 == place));
    for row in rows().0 {
        let Some(broken) = broken_clauses(&Limits::default(), &row.text) else { continue };
        let bits: u64 = broken.iter().map(|clause| 1 << clause as u8).sum();
        assert_eq!(bits, row.bits);
        assert_eq!(broken.is_empty(), row.bits == 0);
        for servers in [Servers::Influx1, Servers::Victoria, Servers::All] {
            assert_eq!(broken.first(servers), broken.iter().find(|clause| clause.concerns(servers)));
            assert_eq!(broken.is_portable(servers), is_portable(servers, &Limits::default(), &row.text));
        }
        assert!(Clause::ALL.iter().all(|clause| broken.contains(*clause) == broken.iter().any(|one| one == *clause)));
    }
}

#[test]
fn limits_are_those_that_are_given() {
    let of = |limits: Limits, text| broken_clauses(&limits, text).unwrap().iter().collect::<Vec<_>>();
    let all = Limits { line: usize::MAX, tags: usize::MAX, earliest: i64::MIN, latest: i64::MAX };
    assert_eq!(of(Limits { line: 4, ..all }, "m f=1"), [Clause::LongLine]);
    assert_eq!(of(Limits { line: 5, ..all }, "m f=1\n"), []);
    assert_eq!(of(Limits { tags: 1, ..all }, "m,a=1,b=2 f=1"), [Clause::TooManyTags]);
    assert_eq!(of(Limits { tags: 0, ..all }, "m f=1"), []);
    assert_eq!(of(Limits { earliest: 6, ..all }, "m f=1 5"), [Clause::TimeNotKept]);
    assert_eq!(of(Limits { latest: -6, ..all }, "m f=1 -5"), [Clause::TimeNotKept]);
    assert_eq!(of(Limits { earliest: 5, latest: 5, ..all }, "m f=1 5"), []);
}

#[test]
fn words_and_sets_are_shown() {
    let broken = broken_clauses(&Limits::default(), "m f=1u,f=1e3").unwrap();
    assert_eq!(format!("{broken:?}"), "{Unsigned, RoundedFloat, RepeatedField}");
    assert_eq!(broken.first(Servers::All).unwrap().to_string(), "a value is an unsigned integer");
    assert_eq!(Broken::default(), broken_clauses(&Limits::default(), "m f=1").unwrap());
}

#[test]
fn what_a_writer_writes_may_be_told() {
    let mut lines = LineWriter::new(Dialect::Strict);
    lines.write_point("m", &[("a", "x\\y")], &[("f", FieldValue::U64(1))], None).unwrap();
    let text = String::from_utf8(lines.into_bytes()).unwrap();
    let broken = broken_clauses(&Limits::default(), &text).unwrap();
    assert!(broken.iter().eq([Clause::TagEscape, Clause::Unsigned]), "{text:?}: {broken:?}");
}

#[test]
fn texts_that_are_no_line() {
    for text in ["", "\n", "\n\n", " ", "# m f=1", "m f=1\n\n", "m f=1\nm f=1", "m f=1\r\n", "m f=", "m s=\"\n"] {
        assert!(broken_clauses(&Limits::default(), text).is_none(), "{text:?}");
        assert!(!is_portable(Servers::All, &Limits::default(), text));
    }
    #[cfg(target_pointer_width = "64")]
    {
        let zeros = vec![0; 1 << 32]; // no byte of it is looked at, so it takes no memory
                                      // SAFETY: a byte 0 is a character of UTF-8.
        let text = unsafe { std::str::from_utf8_unchecked(&zeros) };
        assert!(broken_clauses(&Limits::default(), text).is_none());
    }
}
