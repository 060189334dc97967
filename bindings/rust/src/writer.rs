//! The writer of lines that are read back as what was handed in.
use crate::border::{self, answer, kind, Line, Part, View};
use crate::line::{field_part, float_text, tag_part};
use crate::{Dialect, FieldValue, ParsedLine};
use smallvec::SmallVec;
use std::{error, fmt};

/// Writes lines, and refuses each that would not be read back as what was handed in: so no text of others can end a name, or begin
/// a line of its own.
///
/// Each line that is written is read as the same measurement, tags, fields and timestamp, and as one line, whatever is written
/// after it. Of a line that is refused nothing is written. Which names are admitted says the library, whose contracts are proved. The
/// string of a field may be any text, but of newline-delimited lines one without a newline.
///
/// It holds the lines that were written, and room for more. A request for memory that is refused ends the program, as in the standard
/// library.
///
/// ```
/// use influxdb_line_protocol::{Dialect, FieldValue, LineWriter, NotAdmitted};
///
/// let mut lines = LineWriter::new(Dialect::Crate);
/// let fields = [("free", FieldValue::F64(42.5)), ("note", FieldValue::String("two\nlines".into()))];
/// lines.write_point("disk usage", &[("host", "a")], &fields, Some(7)).unwrap();
///
/// // After a bare newline the rest of this name would be a line.
/// let host = "a f=1\ndisk,host=b";
/// let refused = lines.write_point("disk usage", &[("host", host)], &fields, Some(8)).unwrap_err();
/// assert_eq!(refused, NotAdmitted::TagValue { tag_key: "host".into(), tag_value: host.into() });
///
/// assert_eq!(lines.into_bytes(), b"disk\\ usage,host=a free=42.5,note=\"two\nlines\" 7\n");
/// ```
#[derive(Debug)]
pub struct LineWriter {
    dialect: Dialect,
    // The lines, and after the first `len` bytes room for more.
    out: Vec<u8>,
    len: usize,
}

impl LineWriter {
    /// A writer that has written nothing, of lines that are read back by the rules of this dialect. It holds no memory.
    pub fn new(dialect: Dialect) -> Self {
        Self { dialect, out: vec![], len: 0 }
    }

    /// Writes a line that was read, with its newline. It is an error if the line would not be read back, and then nothing is written.
    ///
    /// A line that was read may be refused: its names may hold a newline or a tab after a backslash, and a literal such as `1e400` is
    /// read as an infinite float.
    ///
    /// ```
    /// use influxdb_line_protocol::{parse_lines, Dialect, LineWriter};
    ///
    /// let mut lines = LineWriter::new(Dialect::Crate);
    /// let refused: Vec<_> = parse_lines("m,k=a\\\nb f=1i\nm f=t  5")
    ///     .filter_map(|item| lines.write(&item.unwrap()).err())
    ///     .map(|refused| refused.to_string())
    ///     .collect();
    /// assert_eq!(lines.as_bytes(), b"m f=true 5\n");
    /// let reason = "it may not be empty, hold a tab or a newline, or end in a backslash";
    /// assert_eq!(refused, [format!("the value \"a\\\\\\nb\" of the tag \"k\" is not admitted: {reason}")]);
    /// ```
    pub fn write(&mut self, line: &ParsedLine<'_>) -> Result<(), NotAdmitted> {
        self.put(&Point::of(line))
    }

    /// Writes the line of a measurement, tags, fields and a timestamp, with its newline. It is an error if the line would not be read
    /// back, and then nothing is written.
    ///
    /// Tags and fields are written in the order in which they come, also if a key is repeated.
    pub fn write_point(
        &mut self,
        measurement: &str,
        tags: &[(&str, &str)],
        fields: &[(&str, FieldValue<'_>)],
        timestamp: Option<i64>,
    ) -> Result<(), NotAdmitted> {
        let fields = fields.iter().map(|(key, value)| (*key, value)).collect();
        self.put(&Point { measurement, tags: tags.into(), fields, timestamp })
    }

    /// The lines that were written.
    pub fn as_bytes(&self) -> &[u8] {
        &self.out[..self.len]
    }

    /// The lines that were written, which are UTF-8.
    pub fn into_bytes(mut self) -> Vec<u8> {
        self.out.truncate(self.len);
        self.out
    }

    /// Forgets the lines that were written, and keeps their memory for the next ones: so that a writer can be used again once its
    /// bytes are sent.
    pub fn clear(&mut self) {
        self.len = 0;
    }

    fn put(&mut self, point: &Point<'_>) -> Result<(), NotAdmitted> {
        point.has_literals()?;
        if point.hand_over(|line, parts| self.append(line, parts)) {
            return Ok(());
        }
        Err(point.part_not_admitted(self.dialect))
    }

    // Appends a line, if its names are admitted: else it answers false, and nothing is written.
    fn append(&mut self, line: &Line<'_>, parts: &[Part<'_>]) -> bool {
        loop {
            let (answer, len) = border::write_line(self.dialect.number(), line, parts, &mut self.out[self.len..]);
            match answer {
                answer::WRITTEN => {
                    self.len += len;
                    return true;
                }
                answer::MORE_ROOM => self.out.resize((2 * self.len).max(self.len + len), 0),
                answer::NOT_ADMITTED => return false,
                _ => unreachable!("a line was refused"),
            }
        }
    }
}

// What a line says.
struct Point<'a> {
    measurement: &'a str,
    tags: SmallVec<[(&'a str, &'a str); 8]>,
    fields: SmallVec<[(&'a str, &'a FieldValue<'a>); 4]>,
    timestamp: Option<i64>,
}

impl<'a> Point<'a> {
    // What a line that was read says.
    fn of(line: &'a ParsedLine<'_>) -> Self {
        let tags = line.series.tag_set.iter().flatten().map(|(key, value)| (key.as_str(), value.as_str())).collect();
        let fields = line.field_set.iter().map(|(key, value)| (key.as_str(), value)).collect();
        Point { measurement: &line.series.measurement, tags, fields, timestamp: line.timestamp }
    }

    // Calls with the line and its parts, as C takes them.
    fn hand_over<T>(&self, take: impl FnOnce(&Line<'_>, &[Part<'_>]) -> T) -> T {
        let literals: Vec<_> = self.fields.iter().map(|(_, value)| float_text(value)).collect();
        let tags = self.tags.iter().map(|(key, value)| tag_part(View::new(key), View::new(value)));
        let fields = self.fields.iter().zip(&literals);
        let parts: Vec<_> = tags.chain(fields.map(|((key, value), literal)| field_part(View::new(key), value, literal))).collect();
        let line = Line {
            measurement: View::new(self.measurement),
            tags: self.tags.len(),
            fields: self.fields.len(),
            timestamp: self.timestamp.unwrap_or(0),
            has_tag_set: !self.tags.is_empty(),
            has_timestamp: self.timestamp.is_some(),
            ..Line::EMPTY
        };
        take(&line, &parts)
    }

    // It is an error if there is no field, or a float has no literal.
    fn has_literals(&self) -> Result<(), NotAdmitted> {
        if self.fields.is_empty() {
            return Err(NotAdmitted::NoField { measurement: self.measurement.to_owned() });
        }
        for &(field_key, value) in &self.fields {
            match *value {
                FieldValue::F64(value) if !value.is_finite() => {
                    return Err(NotAdmitted::Float { field_key: field_key.to_owned(), value });
                }
                _ => {}
            }
        }
        Ok(())
    }

    // The first part that the library refuses in a line whose other parts are admitted.
    fn part_not_admitted(&self, dialect: Dialect) -> NotAdmitted {
        const FIELD: (&str, &str) = ("f", "");
        let admits = |measurement, tag, field| admits(dialect, measurement, tag, field);
        if !admits(self.measurement, None, FIELD) {
            return NotAdmitted::Measurement { measurement: self.measurement.to_owned() };
        }
        for &(tag_key, tag_value) in &self.tags {
            if !admits("m", Some((tag_key, "v")), FIELD) {
                return NotAdmitted::TagKey { tag_key: tag_key.to_owned() };
            }
            if !admits("m", Some(("k", tag_value)), FIELD) {
                return NotAdmitted::TagValue { tag_key: tag_key.to_owned(), tag_value: tag_value.to_owned() };
            }
        }
        for &(field_key, value) in &self.fields {
            if !admits("m", None, (field_key, "")) {
                return NotAdmitted::FieldKey { field_key: field_key.to_owned() };
            }
            match value {
                FieldValue::String(text) if !admits("m", None, ("f", text.as_str())) => {
                    return NotAdmitted::String { field_key: field_key.to_owned(), value: text.as_str().to_owned() };
                }
                _ => {}
            }
        }
        unreachable!("a part of a line that is not admitted is not")
    }
}

impl ParsedLine<'_> {
    /// Whether the line is admitted in a dialect: whether a [`LineWriter`] writes it. If not, [`LineWriter::write`] says why.
    ///
    /// ```
    /// use influxdb_line_protocol::{parse_lines, Dialect};
    ///
    /// let line = parse_lines("m f=\"two\nlines\"").next().unwrap().unwrap();
    /// assert!(line.is_admitted(Dialect::Strict));
    /// assert!(!line.is_admitted(Dialect::NewlineDelimited));
    /// ```
    pub fn is_admitted(&self, dialect: Dialect) -> bool {
        let point = Point::of(self);
        point.has_literals().is_ok() && point.hand_over(|line, parts| border::is_admitted(dialect.number(), line, parts))
    }
}

// Whether a line of these names and of this string is admitted.
fn admits(dialect: Dialect, measurement: &str, tag: Option<(&str, &str)>, (field_key, string): (&str, &str)) -> bool {
    let field = Part { key: View::new(field_key), text: View::new(string), kind: kind::STRING, ..Part::EMPTY };
    let parts: Vec<_> = tag.map(|(key, value)| tag_part(View::new(key), View::new(value))).into_iter().chain([field]).collect();
    let (measurement, has_tag_set) = (View::new(measurement), tag.is_some());
    let line = Line { measurement, tags: parts.len() - 1, fields: 1, has_tag_set, ..Line::EMPTY };
    border::write_line(dialect.number(), &line, &parts, &mut []).0 != answer::NOT_ADMITTED
}

/// Why a [`LineWriter`] refuses a line: the first part of it that is not admitted, or else what cannot be a value.
///
/// A line with such a part would be read as another line, as several or as none.
///
/// ```
/// use influxdb_line_protocol::{Dialect, FieldValue, LineWriter};
///
/// fn write(load: f64) -> Result<Vec<u8>, Box<dyn std::error::Error>> {
///     let mut lines = LineWriter::new(Dialect::Crate);
///     lines.write_point("cpu", &[], &[("load", FieldValue::F64(load))], None)?;
///     Ok(lines.into_bytes())
/// }
/// assert_eq!(write(0.5).unwrap(), b"cpu load=0.5\n");
/// assert_eq!(write(f64::NAN).unwrap_err().to_string(), "the value NaN of the field \"load\" has no literal");
/// ```
#[derive(Clone, Debug, PartialEq)]
#[non_exhaustive]
pub enum NotAdmitted {
    /// The line has no field.
    NoField {
        /// The measurement of the line.
        measurement: String,
    },
    /// A float is infinite or NaN, which no literal spells.
    Float {
        /// The key of the field.
        field_key: String,
        /// The float.
        value: f64,
    },
    /// The measurement is empty, holds a tab, a newline or a NUL, begins with `#` or ends in a backslash.
    Measurement {
        /// The measurement.
        measurement: String,
    },
    /// A tag key is empty, holds a tab or a newline, or ends in a backslash.
    TagKey {
        /// The key.
        tag_key: String,
    },
    /// A tag value is empty, holds a tab or a newline, or ends in a backslash.
    TagValue {
        /// The key of the tag.
        tag_key: String,
        /// The value.
        tag_value: String,
    },
    /// A field key is empty, holds a tab or a newline, or ends in a backslash.
    FieldKey {
        /// The key.
        field_key: String,
    },
    /// A string holds a newline, and the lines are newline-delimited.
    String {
        /// The key of the field.
        field_key: String,
        /// The text of the string.
        value: String,
    },
}

/// The part, its value with what is not printed escaped, and the reason.
impl fmt::Display for NotAdmitted {
    fn fmt(&self, f: &mut fmt::Formatter<'_>) -> fmt::Result {
        const RULE: &str = "is not admitted: it may not be empty, hold a tab or a newline, or end in a backslash";
        match self {
            Self::NoField { measurement } => write!(f, "the line of the measurement {measurement:?} has no field"),
            Self::Float { field_key, value } => write!(f, "the value {value} of the field {field_key:?} has no literal"),
            Self::Measurement { measurement } => {
                write!(f, "the measurement {measurement:?} {RULE}, and may neither hold a NUL nor begin with #")
            }
            Self::TagKey { tag_key } => write!(f, "the tag key {tag_key:?} {RULE}"),
            Self::TagValue { tag_key, tag_value } => write!(f, "the value {tag_value:?} of the tag {tag_key:?} {RULE}"),
            Self::FieldKey { field_key } => write!(f, "the field key {field_key:?} {RULE}"),
            Self::String { field_key, value } => {
                write!(f, "the value {value:?} of the field {field_key:?} is not admitted: it may not hold a newline")
            }
        }
    }
}

impl error::Error for NotAdmitted {}
