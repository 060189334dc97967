//! The pieces of a reader, however few bytes it gives at once.
use influxdb_line_protocol::{split_lines, split_lines_in, Dialect, LineError, LineReader, Piece, MAX_LINE};
use std::error::Error as _;
use std::io::{self, BufRead, BufReader, Read};

// A reader of so many bytes at once.
fn in_parts(text: &[u8], len: usize) -> impl BufRead + '_ {
    BufReader::with_capacity(len, text)
}

// What comes of each piece: its text, or the error in words and the newlines.
fn taken<R: BufRead>(lines: LineReader<R>) -> Vec<String> {
    let item = |line: Result<Piece<String>, LineError>| match line {
        Ok(piece) => piece.text,
        Err(LineError::TooLong { newlines, .. }) => format!("too long {newlines}"),
        Err(LineError::NotUtf8 { newlines, .. }) => format!("not UTF-8 {newlines}"),
        Err(fault) => format!("failed: {fault}"),
    };
    lines.map(item).collect()
}

const TEXTS: [&str; 10] = [
    "",
    "\n\n",
    "m f=1\nn f=2",
    "m f=\"a\nb\"\nn f=2\n",
    "m\\\nn f=\"\\\"\n\\\\\" 5\nn f=2",
    "m f=\"a\n\nb",
    "# a=\"\nm f=1\n \t# b\\\nn f=\"x\"",
    "m,k=v\\ w a=\"=,\n\",b=1,c=\"\\\\\"\n\nn f=\"\u{e9}\n\u{1f600}\"\n",
    "m a,b=\"\n",
    "m a=1,b=\"x y,z=\"\nn a=1",
];

#[test]
fn parts_of_any_length_equal_the_whole() {
    let long = format!("m f=\"{}\n\"\nn f=1\n{}", "a=,\\\" ".repeat(1000), "x".repeat(500));
    for text in TEXTS.into_iter().chain([long.as_str()]) {
        let wanted: Vec<_> = split_lines(text).collect();
        for len in [1, 2, 3, 5, 63, 64, 65, 10_000] {
            assert_eq!(taken(LineReader::new(in_parts(text.as_bytes(), len))), wanted, "{text:?} in parts of {len}");
        }
    }
}

#[test]
fn parts_of_short_texts_equal_the_whole() {
    let bytes = b" \"#,=\\\nm";
    for number in 0..bytes.len().pow(5) {
        let text: Vec<u8> = (0..5).map(|place| bytes[number / bytes.len().pow(place) % bytes.len()]).collect();
        let text = format!("m a=1{}", String::from_utf8(text).unwrap());
        assert_eq!(taken(LineReader::new(in_parts(text.as_bytes(), 1))), split_lines(&text).collect::<Vec<_>>(), "{text:?}");
    }
}

#[test]
fn comments_of_the_strict_dialect_end_at_their_newline() {
    let text = "# a=\"\nm f=1\n \t# b\\\nn f=\"x\ny\"";
    for len in [1, 2, 7, 100] {
        let strict = LineReader::new_in(in_parts(text.as_bytes(), len), Dialect::Strict, usize::MAX);
        assert_eq!(taken(strict), ["# a=\"", "m f=1", " \t# b\\", "n f=\"x\ny\""]);
        let original = LineReader::new(in_parts(text.as_bytes(), len));
        assert_eq!(taken(original), split_lines(text).collect::<Vec<_>>());
    }
}

#[test]
fn every_newline_ends_a_newline_delimited_line() {
    let text = "m f=\"a\n# b\\\n\\\nn f=\"x\" \n";
    for len in [1, 2, 7, 100] {
        let lines = LineReader::new_in(in_parts(text.as_bytes(), len), Dialect::NewlineDelimited, usize::MAX);
        assert_eq!(taken(lines), text.split('\n').collect::<Vec<_>>());
    }
}

#[test]
fn a_piece_is_too_long_where_it_has_more_than_the_limit() {
    let text = "m f=1\nm f=\"a\nb\nc\"\nm f=10\n\nm f=2";
    for len in [1, 2, 3, 4, 5, 6, 7, 8, 100] {
        let reader = LineReader::new_in(in_parts(text.as_bytes(), len), Dialect::Crate, 5);
        assert_eq!(taken(reader), ["m f=1", "too long 2", "too long 0", "", "m f=2"], "in parts of {len}");
        let last = LineReader::new_in(in_parts(b"m\nm f=\"a\n", len), Dialect::Crate, 5);
        assert_eq!(taken(last), ["m", "too long 1"], "in parts of {len}");
        let none = LineReader::new_in(in_parts(b"a\n\nb", len), Dialect::Crate, 0);
        assert_eq!(taken(none), ["too long 0", "", "too long 0"], "in parts of {len}");
    }
}

#[test]
fn a_piece_that_is_not_utf8_leaves_the_next_ones_alone() {
    let text = b"m f=\"\xff\n\"\nm f=\"\xc3\xa9\"\n\xc3\nn";
    for len in [1, 2, 3, 100] {
        let reader = LineReader::new(in_parts(text, len));
        assert_eq!(taken(reader), ["not UTF-8 1", "m f=\"\u{e9}\"", "not UTF-8 0", "n"]);
    }
    let fault = LineReader::new(&b"\xff"[..]).next().unwrap().unwrap_err();
    assert_eq!((fault.to_string().as_str(), fault.source().is_some()), ("line 1: the line is not UTF-8", true));
}

// Where each piece of a text begins, or each error in the place of one.
fn places<R: BufRead>(mut lines: LineReader<R>) -> Vec<(u64, u64)> {
    let mut places = vec![];
    while let Some(piece) = lines.next_line() {
        places.push(match piece {
            Ok(piece) => (piece.line, piece.offset),
            Err(LineError::TooLong { line, offset, .. } | LineError::NotUtf8 { line, offset, .. }) => (line, offset),
            Err(fault) => panic!("{fault}"),
        });
    }
    places
}

#[test]
fn each_piece_has_the_place_where_it_begins() {
    for text in TEXTS {
        for dialect in [Dialect::Crate, Dialect::Strict, Dialect::NewlineDelimited] {
            let start = text.as_ptr() as usize;
            let offsets = split_lines_in(dialect, text).map(|piece| piece.as_ptr() as usize - start);
            let wanted: Vec<_> =
                offsets.map(|at| (1 + text[..at].matches('\n').count() as u64, at as u64)).collect();
            for (len, limit) in [(1, 3), (2, 0), (5, MAX_LINE), (100, 7)] {
                assert_eq!(places(LineReader::new_in(in_parts(text.as_bytes(), len), dialect, limit)), wanted, "{text:?}");
            }
        }
    }
    let not_utf8 = b"m f=1\n\xff\"\n\nm g=\"\xff\n\"\nm f=2";
    assert_eq!(places(LineReader::new(&not_utf8[..])), [(1, 0), (2, 6), (3, 9), (4, 10), (6, 19)]);
}

#[test]
fn a_reader_has_a_limit_if_none_is_given() {
    let longest = format!("m f={}", "1".repeat(MAX_LINE - 4));
    let text = format!("{longest}1\n{longest}\nm f=1");
    let file = io::Cursor::new(text.as_bytes());
    let mut lines = LineReader::new(file.clone());
    let long = lines.next_line().unwrap().unwrap_err();
    assert_eq!(long.to_string(), "line 1: the line is too long");
    assert_eq!(lines.next_line().unwrap().unwrap().len(), MAX_LINE);
    assert_eq!(lines.next_line().unwrap().unwrap().text, "m f=1");
    assert!(lines.next_line().is_none());
    assert_eq!(LineReader::from_read(file, Dialect::Strict, MAX_LINE + 1).filter(|piece| piece.is_ok()).count(), 3);
}

// Gives a byte, an interruption and a failure in turn.
struct Failing<'a> {
    text: &'a [u8],
    calls: usize,
}

impl Read for Failing<'_> {
    fn read(&mut self, out: &mut [u8]) -> io::Result<usize> {
        self.calls += 1;
        match self.calls % 3 {
            1 => self.text.read(&mut out[..1]),
            2 => Err(io::ErrorKind::Interrupted.into()),
            _ => Err(io::Error::new([io::ErrorKind::Other, io::ErrorKind::WouldBlock][self.calls % 2], "no more paper")),
        }
    }
}

#[test]
fn a_reader_that_fails_loses_nothing() {
    let text = "m f=\"a\nb\"\nn f=1";
    let mut lines = LineReader::new(BufReader::with_capacity(1, Failing { text: text.as_bytes(), calls: 0 }));
    let mut failures = 0;
    let mut pieces = vec![];
    while let Some(line) = lines.next_line() {
        match line {
            Ok(piece) => pieces.push((piece.to_string(), piece.line, piece.offset)),
            Err(fault) => {
                assert_eq!(fault.to_string(), "no more paper");
                failures += 1;
            }
        }
    }
    assert_eq!((pieces, failures), (vec![("m f=\"a\nb\"".to_owned(), 1, 0), ("n f=1".to_owned(), 3, 10)], text.len()));
}

#[test]
fn the_reader_is_at_the_byte_after_the_last_cut() {
    let mut lines = LineReader::new(&b"m f=1\nn f=2"[..]);
    assert_eq!(lines.next_line().unwrap().unwrap().text, "m f=1");
    assert_eq!(lines.into_inner(), b"n f=2");
}

#[test]
fn the_end_stays_the_end() {
    let mut lines = LineReader::new(&b"m"[..]);
    assert_eq!(lines.next().unwrap().unwrap().text, "m");
    assert!(lines.next().is_none() && lines.next_line().is_none());
}
