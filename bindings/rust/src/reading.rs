//! The readers: what is read of a text, item by item.
use crate::border::{self, answer, fault_kind, kind, Block, Line, Lines, OffsetPart, OffsetRow, Part, Room, Row, View};
use crate::{Dialect, Error, EscapedStr, FieldSet, FieldValue, ParsedLine, Result, Series, TagSet};
use nom::error::ErrorKind;
use std::ops::{Range, RangeInclusive};
use std::{fmt, iter::FusedIterator, mem};

/// Reads each line of a text, by the rules of the original crate. Blank lines and comments are passed over; a line with a fault is an
/// error, and the lines after it are read.
///
/// ```
/// use influxdb_line_protocol::{parse_lines, FieldValue};
///
/// let mut lines = parse_lines("cpu,host=A usage=64i 15\nno fields");
/// let line = lines.next().unwrap().unwrap();
/// assert_eq!(line.series.measurement, "cpu");
/// assert_eq!(line.tag_value("host").unwrap(), &"A");
/// assert_eq!(line.field_value("usage"), Some(&FieldValue::I64(64)));
/// assert_eq!(line.timestamp, Some(15));
/// assert_eq!(lines.next().unwrap().unwrap_err().to_string(), "No fields were provided");
/// assert!(lines.next().is_none());
/// ```
pub fn parse_lines(input: &str) -> ParseLines<'_> {
    parse_lines_in(Dialect::Crate, input)
}

/// Reads each line of a text, by the rules of a dialect: else as [`parse_lines`].
///
/// ```
/// use influxdb_line_protocol::{parse_lines_in, Dialect};
///
/// let count = |dialect| parse_lines_in(dialect, "m f=\"open\nn f=1i\n").filter(|item| item.is_ok()).count();
/// assert_eq!(count(Dialect::Strict), 0); // the string goes on in the next line
/// assert_eq!(count(Dialect::NewlineDelimited), 1); // a line that is open takes no other with it
/// ```
pub fn parse_lines_in(dialect: Dialect, input: &str) -> ParseLines<'_> {
    ParseLines {
        input,
        given: 0,
        lines: Lines::of(dialect.number(), input),
        rows: vec![],
        parts: vec![Part::EMPTY; 16],
        room: vec![0; 256],
        filled: 0,
        taken: 0,
        answer: answer::LINE,
    }
}

/// Cuts a text into the pieces that hold one line each, which are not read, by the rules of the original crate. A newline within the
/// quotes of a string is no end.
///
/// ```
/// let pieces: Vec<_> = influxdb_line_protocol::split_lines("m f=\"a\nb\"\nm g=t").collect();
/// assert_eq!(pieces, ["m f=\"a\nb\"", "m g=t"]);
/// ```
pub fn split_lines(input: &str) -> SplitLines<'_> {
    split_lines_in(Dialect::Crate, input)
}

/// Cuts a text into the pieces that hold one line each, by the rules of a dialect: else as [`split_lines`].
///
/// ```
/// use influxdb_line_protocol::{split_lines_in, Dialect};
///
/// let pieces: Vec<_> = split_lines_in(Dialect::NewlineDelimited, "m f=\"a\nb\"").collect();
/// assert_eq!(pieces, ["m f=\"a", "b\""]);
/// ```
pub fn split_lines_in(dialect: Dialect, input: &str) -> SplitLines<'_> {
    SplitLines(Lines::of(dialect.number(), input))
}

/// The pieces of a text, as [`split_lines`] and [`split_lines_in`] give them.
#[derive(Clone)]
pub struct SplitLines<'a>(Lines<'a>);

impl<'a> Iterator for SplitLines<'a> {
    type Item = &'a str;

    fn next(&mut self) -> Option<&'a str> {
        let mut piece = View::EMPTY;
        // SAFETY: the cursor is that of `Lines::of`, or as a call has left it; it and `piece` are apart from each other and from the text.
        // A piece is a part of the text, which is borrowed for as long as the piece is.
        unsafe { border::lp_lines_piece(&mut self.0, &mut piece).then(|| piece.text.get()) }
    }
}

impl FusedIterator for SplitLines<'_> {}

impl fmt::Debug for SplitLines<'_> {
    fn fmt(&self, f: &mut fmt::Formatter<'_>) -> fmt::Result {
        f.debug_struct("SplitLines").finish_non_exhaustive()
    }
}

/// The lines of a text and its faults, as [`parse_lines`] and [`parse_lines_in`] give them. [`ParseLines::with_places`] tells where they
/// are too.
///
/// It holds what is left of the text, and memory for up to 16 items, which it reads ahead.
pub struct ParseLines<'a> {
    // The text, of which so many items were given out.
    input: &'a str,
    given: usize,
    lines: Lines<'a>,
    rows: Vec<Row<'a>>,
    parts: Vec<Part<'a>>,
    room: Vec<u8>,
    // So many rows hold items, of which so many were given out.
    filled: usize,
    taken: usize,
    // The answer for the last block.
    answer: u32,
}

/// Where an item lies in the text that is read. Lines and columns count from 1, places of bytes from 0.
#[derive(Clone, Debug, PartialEq, Eq)]
#[non_exhaustive]
pub struct Place {
    /// The bytes of the item, without the blanks and comments before it.
    pub span: Range<usize>,
    /// The bytes of its piece, which is what [`split_lines`] gives.
    pub piece: Range<usize>,
    /// The line in which the item begins.
    pub line: u64,
    /// The lines that its piece spans: several if a string or an escape holds a newline, or if comments come before the item.
    pub lines: RangeInclusive<u64>,
    /// The byte at which reading stopped: of a line its end, of a fault the byte that could not be read.
    pub stop: usize,
    /// The line of this byte.
    pub stop_line: u64,
    /// Its column in this line, in bytes.
    pub stop_column: usize,
}

impl<'a> ParseLines<'a> {
    /// The same items, each after its [`Place`]: where it lies, and of a fault the line and the column at which reading stopped.
    ///
    /// It reads each item once more for that, by offsets. It panics at a line of 4 GiB or more.
    ///
    /// ```
    /// let text = "m f=1i\n# a comment\nm f=\"a\nb\",g=2x";
    /// let [line, fault] = &influxdb_line_protocol::parse_lines(text).with_places().collect::<Vec<_>>()[..] else { panic!() };
    /// assert_eq!((line.0.line, line.0.span.clone(), line.1.is_ok()), (1, 0..6, true));
    /// let (place, item) = fault;
    /// assert_eq!((place.line, place.lines.clone(), place.span.clone(), item.is_err()), (3, 3..=4, 19..33, true));
    /// assert_eq!((place.stop_line, place.stop_column, place.stop), (4, 7, 32)); // the x
    /// ```
    pub fn with_places(self) -> impl Iterator<Item = (Place, Result<ParsedLine<'a>>)> + 'a {
        let places = Places { text: self.input, before: 0, dialect: self.lines.dialect, block: Block::begin(), parts: vec![], room: vec![] };
        places.skip(self.given).zip(self)
    }

    // Reads the next block, once each item of the last one was given out. False: no item is left.
    #[inline(never)]
    fn read_block(&mut self) -> bool {
        while self.answer != answer::END {
            self.lend_more();
            self.taken = 0;
            let mut room = Room { at: self.room.as_mut_ptr(), len: self.room.len() };
            let (rows, parts) = (self.rows.as_mut_ptr(), self.parts.as_mut_ptr());
            let (rows_len, parts_len) = (self.rows.len(), self.parts.len());
            // SAFETY: the cursor is that of `Lines::of`, or as a call has left it. Rows, parts and room are vectors, so no pointer is
            // null, all of their items are filled, and each is memory of its own, apart from the text. A text that a row or a part
            // still has of the last block has its bytes, in the input or in the room.
            self.answer = unsafe {
                border::lp_lines_block(&mut self.lines, &mut room, rows, rows_len, parts, parts_len, &mut self.filled)
            };
            if self.filled > 0 {
                return true;
            }
        }
        false
    }

    // Lends more of what the last block ran out of: at least what the next item takes, and twice as much as long as that is
    // little. The first block has one row.
    fn lend_more(&mut self) {
        let needs = self.rows.get(self.filled).map_or(&Line::EMPTY, |row| &row.line);
        match self.answer {
            answer::MORE_PARTS => {
                let wanted = longer(self.parts.len(), needs.tags + needs.fields, 16 * ROWS);
                self.parts.resize(wanted, Part::EMPTY);
            }
            answer::MORE_ROOM => {
                let wanted = longer(self.room.len(), needs.copied_len, 256 * ROWS);
                // No row and no part keeps a text of the room that goes.
                self.rows.fill(Row::EMPTY);
                self.parts.fill(Part::EMPTY);
                self.room.resize(wanted, 0);
            }
            _ => self.rows.resize(longer(self.rows.len(), 1, ROWS), Row::EMPTY),
        }
    }

    // The line of a row, made where it is answered: so it is not inlined.
    #[inline(never)]
    fn item(&self, row: &Row<'a>) -> Option<Result<ParsedLine<'a>>> {
        // SAFETY: `next` hands in a row of the last block, in which the library showed a line. The texts of that line and its parts
        // are parts of the input, or lie in the room, which only the next block writes.
        let mut item = Some(Ok(unsafe { bare_line(&row.line) }));
        if let Some(Ok(line)) = &mut item {
            let parts = &self.parts[row.parts_at..][..row.line.tags + row.line.fields];
            // SAFETY: the same, of the parts of the row.
            unsafe { put_parts(line, &row.line, parts) }
        }
        item
    }
}

// At most so many items are read at once.
const ROWS: usize = 16;

// How much to lend in the place of `lent`.
fn longer(lent: usize, needed: usize, most: usize) -> usize {
    (2 * lent).min(most).max(needed).max(lent)
}

impl<'a> Iterator for ParseLines<'a> {
    type Item = Result<ParsedLine<'a>>;

    fn next(&mut self) -> Option<Self::Item> {
        if self.taken == self.filled && !self.read_block() {
            return None;
        }
        let row = &self.rows[self.taken];
        self.taken += 1;
        self.given += 1;
        if row.answer == answer::LINE {
            self.item(row)
        } else {
            // SAFETY: the row is one of the last block, in which the library showed a fault. Its text lies in the room, which only the
            // next block writes.
            Some(Err(unsafe { fault(&row.line) }))
        }
    }
}

impl FusedIterator for ParseLines<'_> {}

// The places of the items of a text, which are read by offsets, one by one.
struct Places<'a> {
    // What is left of the text from the place on from which rows count, and how many bytes come before it.
    text: &'a str,
    before: usize,
    dialect: u32,
    block: Block,
    parts: Vec<OffsetPart>,
    room: Vec<u8>,
}

impl Places<'_> {
    // Where the item of a row lies.
    fn place(&self, row: &OffsetRow) -> Place {
        let (Range { start, end }, line_at, stop) = (row.piece.range(), row.line_at as usize, row.stop_at as usize);
        let line_of = |place: usize| row.line + self.text[start..place].matches('\n').count() as u64;
        Place {
            span: self.before + line_at..self.before + end,
            piece: self.before + start..self.before + end,
            line: line_of(line_at),
            lines: row.line..=line_of(end),
            stop: self.before + stop,
            stop_line: line_of(stop),
            stop_column: stop + 1 - self.text[start..stop].rfind('\n').map_or(start, |at| start + at + 1),
        }
    }
}

impl Iterator for Places<'_> {
    type Item = Place;

    fn next(&mut self) -> Option<Place> {
        let mut rows = [OffsetRow::default()];
        loop {
            let answer = self.block.read(self.text, self.dialect, &mut self.room, &mut rows, &mut self.parts);
            let [row] = &rows;
            match answer {
                _ if self.block.rows > 0 => return Some(self.place(row)),
                answer::MORE_PARTS => self.parts.resize((row.tags + row.fields) as usize, OffsetPart::default()),
                answer::MORE_ROOM => self.room.resize(row.room_len as usize, 0),
                answer::MORE_TEXT => {
                    let passed = mem::take(&mut self.block.at) as usize;
                    assert!(passed > 0, "a line has 4 GiB or more");
                    self.text = &self.text[passed..];
                    self.before += passed;
                }
                _ => return None,
            }
        }
    }
}

impl fmt::Debug for ParseLines<'_> {
    fn fmt(&self, f: &mut fmt::Formatter<'_>) -> fmt::Result {
        f.debug_struct("ParseLines").finish_non_exhaustive()
    }
}

/// A line without its tags and fields.
///
/// # Safety
///
/// The library showed a line in this one, in whose texts nothing was written since. A text that is no copy lives for `'a`.
#[inline(always)]
unsafe fn bare_line<'a>(line: &Line<'a>) -> ParsedLine<'a> {
    ParsedLine {
        series: Series {
            // SAFETY: the library shows the series of a line as a part of the input, so by the caller it lives for `'a`.
            raw_input: unsafe { line.series.get() },
            // SAFETY: the library shows a measurement in each line, and by the caller it is as it was then.
            measurement: unsafe { escaped(&line.measurement) },
            tag_set: None,
        },
        field_set: FieldSet::new(),
        timestamp: line.has_timestamp.then_some(line.timestamp),
    }
}

/// Puts the tags and fields into a line.
///
/// # Safety
///
/// As of [`bare_line`], and `parts` are those of that line.
#[inline(always)]
unsafe fn put_parts<'a>(parsed: &mut ParsedLine<'a>, line: &Line<'a>, parts: &[Part<'a>]) {
    let (tags, fields) = parts.split_at(line.tags);
    if line.has_tag_set {
        let tag_set = parsed.series.tag_set.insert(TagSet::new());
        for tag in tags {
            // SAFETY: the library shows a key and a text in each tag, and by the caller they are as they were then.
            tag_set.push(unsafe { (escaped(&tag.key), escaped(&tag.text)) });
        }
    }
    for field in fields {
        // SAFETY: the library shows a key and a value in each field, and by the caller they are as they were then.
        parsed.field_set.push(unsafe { (escaped(&field.key), value(field)) });
    }
}

/// A fault.
///
/// # Safety
///
/// The library showed a fault in this line, in whose text nothing was written since.
#[cold]
unsafe fn fault(line: &Line<'_>) -> Error {
    // SAFETY: the library shows a text in each fault, and by the caller it is as it was then. It is copied before anything else.
    let value = unsafe { line.fault_text.get() }.to_owned();
    match line.fault {
        fault_kind::DUPLICATE_TAG => Error::DuplicateTag { tag_key: value },
        fault_kind::MEASUREMENT_VALUE_INVALID => Error::MeasurementValueInvalid,
        fault_kind::FIELD_SET_MISSING => Error::FieldSetMissing,
        fault_kind::INTEGER_VALUE_INVALID => {
            Error::IntegerValueInvalid { source: out_of_range(value.parse::<i64>()), value }
        }
        fault_kind::UINTEGER_VALUE_INVALID => {
            Error::UIntegerValueInvalid { source: out_of_range(value.parse::<u64>()), value }
        }
        fault_kind::TIMESTAMP_VALUE_INVALID => {
            Error::TimestampValueInvalid { source: out_of_range(value.parse::<i64>()), value }
        }
        fault_kind::ENDS_WITH_BACKSLASH => Error::EndsWithBackslash,
        fault_kind::CANNOT_PARSE_ENTIRE_LINE => Error::CannotParseEntireLine { trailing_content: value },
        fault_kind::TAG_SET_MALFORMED => Error::TagSetMalformed,
        _ => Error::GenericParsingError { kind: ErrorKind::TakeWhile1, trace: vec![] },
    }
}

fn out_of_range<T, E>(read: std::result::Result<T, E>) -> E {
    match read {
        Ok(_) => unreachable!("a number in its range was refused"),
        Err(source) => source,
    }
}

/// # Safety
///
/// The library showed a text in this view, in which nothing was written since. If the text is no copy, it lives for `'a`.
#[inline(always)]
unsafe fn escaped<'a>(view: &View<'a>) -> EscapedStr<'a> {
    // SAFETY: by the caller the text is as the library showed it. A text that does not live for `'a` is a copy, of which only
    // another copy is answered.
    let text = unsafe { view.text.get() };
    if view.copied {
        EscapedStr::CopiedValue(text.to_owned())
    } else {
        EscapedStr::SingleSlice(text)
    }
}

/// # Safety
///
/// The library showed a field in this part, in whose text nothing was written since. If the text is no copy, it lives for `'a`.
#[inline(always)]
unsafe fn value<'a>(field: &Part<'a>) -> FieldValue<'a> {
    match field.kind {
        kind::INTEGER => FieldValue::I64(field.integer),
        kind::UNSIGNED => FieldValue::U64(field.unsigned),
        // SAFETY: the library shows a literal in a float, and by the caller it is as it was then. Its number keeps no text.
        kind::FLOAT => FieldValue::F64(float(unsafe { field.text.text.get() })),
        // SAFETY: the library shows a text in a string, and by the caller it is as it was then, and lives for `'a` if it is no copy.
        kind::STRING => FieldValue::String(unsafe { escaped(&field.text) }),
        _ => FieldValue::Boolean(field.boolean),
    }
}

// The number that a literal spells.
fn float(literal: &str) -> f64 {
    decimal(literal.as_bytes()).unwrap_or_else(|| literal.parse().expect("a literal that is read as a float is one"))
}

// The same, where both its digits as an integer and the power of ten that divides them are exact: then so is the rounding.
fn decimal(literal: &[u8]) -> Option<f64> {
    const DIGITS: usize = 15;
    const TENS: [f64; DIGITS + 1] =
        [1e0, 1e1, 1e2, 1e3, 1e4, 1e5, 1e6, 1e7, 1e8, 1e9, 1e10, 1e11, 1e12, 1e13, 1e14, 1e15];
    let digits = literal.strip_prefix(b"-").unwrap_or(literal);
    if digits.len() > DIGITS {
        return None;
    }
    let mut number = 0;
    let mut fraction = 0;
    for (place, &byte) in digits.iter().enumerate() {
        match byte {
            b'0'..=b'9' => number = 10 * number + i64::from(byte - b'0'),
            b'.' => fraction = digits.len() - 1 - place,
            _ => return None,
        }
    }
    let positive = number as f64 / TENS[fraction];
    Some(if digits.len() < literal.len() { -positive } else { positive })
}
