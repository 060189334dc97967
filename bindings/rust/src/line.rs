//! Lines that were read, and what is shown of them.
use crate::border::{self, answer, kind, Line, Part, Text, View};
use crate::{Error, EscapedStr, Result};
use smallvec::SmallVec;
use std::{borrow::Cow, fmt, mem};

/// The name of what is measured.
pub type Measurement<'a> = EscapedStr<'a>;

/// The keys and values of the fields, in the order of the line.
pub type FieldSet<'a> = SmallVec<[(EscapedStr<'a>, FieldValue<'a>); 4]>;

/// The keys and values of the tags, in the order of the line.
pub type TagSet<'a> = SmallVec<[(EscapedStr<'a>, EscapedStr<'a>); 8]>;

/// A line that was read.
#[derive(Debug)]
pub struct ParsedLine<'a> {
    /// The measurement and the tags.
    pub series: Series<'a>,
    /// The fields.
    pub field_set: FieldSet<'a>,
    /// The timestamp, if the line has one.
    pub timestamp: Option<i64>,
}

/// The measurement and the tags of a line: what tells its series from others.
#[derive(Debug)]
pub struct Series<'a> {
    pub(crate) raw_input: &'a str,
    /// The measurement.
    pub measurement: Measurement<'a>,
    /// The tags, if the line has some.
    pub tag_set: Option<TagSet<'a>>,
}

/// The value of a field.
#[derive(Debug, Clone, PartialEq)]
pub enum FieldValue<'a> {
    /// An integer.
    I64(i64),
    /// An unsigned integer.
    U64(u64),
    /// A float.
    F64(f64),
    /// A string.
    String(EscapedStr<'a>),
    /// A Boolean.
    Boolean(bool),
}

impl<'a> ParsedLine<'a> {
    /// How many columns the line has: its tags, its fields and the timestamp, which counts even where it is left out.
    ///
    /// ```
    /// let line = influxdb_line_protocol::parse_lines("m,k=v f=1i,g=t").next().unwrap().unwrap();
    /// assert_eq!(line.column_count(), 4);
    /// ```
    pub fn column_count(&self) -> usize {
        1 + self.field_set.len() + self.series.tag_set.as_ref().map_or(0, |tags| tags.len())
    }

    /// The value of the first tag with this key.
    pub fn tag_value(&self, tag_key: &str) -> Option<&EscapedStr<'a>> {
        let tags = self.series.tag_set.as_ref()?;
        tags.iter().find(|(key, _)| *key == tag_key).map(|(_, value)| value)
    }

    /// The value of the first field with this key.
    pub fn field_value(&self, field_key: &str) -> Option<&FieldValue<'a>> {
        self.field_set.iter().find(|(key, _)| *key == field_key).map(|(_, value)| value)
    }
}

impl FieldValue<'_> {
    /// Whether both values are of the same type.
    pub fn is_same_type(&self, other: &Self) -> bool {
        mem::discriminant(self) == mem::discriminant(other)
    }
}

fn view<'a>(text: &'a EscapedStr<'_>) -> View<'a> {
    View { text: Text::new(text), copied: text.is_escaped() }
}

/// The part of a tag.
pub(crate) fn tag_part<'a>(key: View<'a>, value: View<'a>) -> Part<'a> {
    Part { key, text: value, ..Part::EMPTY }
}

/// The text of a float, and none of any other value.
pub(crate) fn float_text(value: &FieldValue<'_>) -> String {
    match value {
        FieldValue::F64(value) => value.to_string(),
        _ => String::new(),
    }
}

/// The part of a field, of which `float` is the text if it is a float. An infinite one and NaN have no literal, and go in as
/// strings, which are shown without quotes.
pub(crate) fn field_part<'a>(key: View<'a>, value: &'a FieldValue<'_>, float: &'a str) -> Part<'a> {
    let part = Part { key, ..Part::EMPTY };
    match value {
        FieldValue::I64(value) => Part { kind: kind::INTEGER, integer: *value, ..part },
        FieldValue::U64(value) => Part { kind: kind::UNSIGNED, unsigned: *value, ..part },
        FieldValue::F64(value) if value.is_finite() => Part { kind: kind::FLOAT, text: View::new(float), ..part },
        FieldValue::F64(_) => Part { kind: kind::STRING, text: View::new(float), ..part },
        FieldValue::String(value) => Part { kind: kind::STRING, text: view(value), ..part },
        FieldValue::Boolean(value) => Part { kind: kind::BOOLEAN, boolean: *value, ..part },
    }
}

// Whether no byte of a text is one of these. The loop has no branch within, so that it goes by many bytes at a time.
fn has_none(text: &str, is_special: impl Fn(u8) -> bool) -> bool {
    !text.bytes().fold(false, |found, byte| found | is_special(byte))
}

// Shows a text with a backslash before each of these bytes. What is between two of them is shown as one run.
fn show_escaped(text: &str, is_special: impl Fn(u8) -> bool, f: &mut fmt::Formatter<'_>) -> fmt::Result {
    if has_none(text, &is_special) {
        return f.write_str(text);
    }
    let mut start = 0;
    for (at, byte) in text.bytes().enumerate() {
        if is_special(byte) {
            f.write_str(&text[start..at])?;
            f.write_str("\\")?;
            start = at;
        }
    }
    f.write_str(&text[start..])
}

// Shows a measurement.
fn show_measurement(name: &str, f: &mut fmt::Formatter<'_>) -> fmt::Result {
    show_escaped(name, |byte| matches!(byte, b',' | b' '), f)
}

// Shows a tag's key or value, or a field's key.
fn show_name(name: &str, f: &mut fmt::Formatter<'_>) -> fmt::Result {
    show_escaped(name, |byte| matches!(byte, b',' | b'=' | b' '), f)
}

impl<'a> Series<'a> {
    // The line without fields, and its tags.
    fn handed(&self) -> (Line<'_>, Vec<Part<'_>>) {
        let tags: Vec<_> = self.tag_set.iter().flatten().map(|(key, value)| tag_part(view(key), view(value))).collect();
        let line = Line {
            series: Text::new(self.raw_input),
            measurement: view(&self.measurement),
            tags: tags.len(),
            has_tag_set: self.tag_set.is_some(),
            ..Line::EMPTY
        };
        (line, tags)
    }

    fn is_escaped(&self) -> bool {
        let mut tags = self.tag_set.iter().flatten();
        self.measurement.is_escaped() || tags.any(|(key, value)| key.is_escaped() || value.is_escaped())
    }

    /// The measurement and the tags, in the order of their keys. A key that is repeated is an error.
    ///
    /// A base tells its series from others where [`Series::is_base_safe`] holds for both: `m,a=1\,b\=2` and `m,a=1,b=2` are two
    /// series with one base, `m,\,=v` and `m,,=v` are one series with two.
    ///
    /// ```
    /// let line = influxdb_line_protocol::parse_lines("m,b=2,a=1 f=1i").next().unwrap().unwrap();
    /// assert_eq!(line.series.generate_base().unwrap(), "m,a=1,b=2");
    /// ```
    pub fn generate_base(self) -> Result<Cow<'a, str>> {
        let tags = self.tag_set.as_deref().unwrap_or_default();
        if !tags.windows(2).all(|two| two[0].0 < two[1].0) {
            return self.base_by_key(tags).map(Cow::Owned);
        }
        if self.is_escaped() {
            return Ok(Cow::Owned(self.based(tags.iter())));
        }
        Ok(Cow::Borrowed(self.raw_input))
    }

    // Whether no byte of a name has a backslash before it in the key.
    fn is_plain(&self) -> bool {
        let mut tags = self.tag_set.iter().flatten();
        has_none(&self.measurement, |byte| matches!(byte, b',' | b' ' | b'\\'))
            && tags.all(|(key, value)| [key, value].iter().all(|name| has_none(name, |byte| matches!(byte, b',' | b'=' | b' ' | b'\\'))))
    }

    // The base with these tags, unescaped.
    fn based<'t>(&'t self, tags: impl Iterator<Item = &'t (EscapedStr<'a>, EscapedStr<'a>)> + Clone) -> String {
        let len = tags.clone().map(|(key, value)| key.len() + value.len() + 2).sum::<usize>();
        let mut base = String::with_capacity(self.measurement.len() + len);
        base.push_str(&self.measurement);
        for (key, value) in tags {
            base.extend([",", key, "=", value]);
        }
        base
    }

    // The base with the tags in the order of their keys. Equal keys come beside one another, in their own order: of those that come after
    // an equal one, the one that the line has first is the fault.
    fn base_by_key(&self, tags: &[(EscapedStr<'a>, EscapedStr<'a>)]) -> Result<String> {
        let mut places: Vec<_> = (0..tags.len()).collect();
        places.sort_by(|&one, &other| tags[one].0.cmp(&tags[other].0));
        let repeated = places.windows(2).filter(|two| tags[two[0]].0 == tags[two[1]].0).map(|two| two[1]).min();
        match repeated {
            Some(place) => Err(Error::DuplicateTag { tag_key: tags[place].0.to_string() }),
            None => Ok(self.based(places.iter().map(|&place| &tags[place]))),
        }
    }

    /// The key of this series: a text that it has alone, whatever its names hold.
    ///
    /// It is the measurement and the tags as a [`LineWriter`](crate::LineWriter) writes them, in the order of the tag keys, by bytes.
    /// Tags of equal keys stay in their order, so every series has a key. Two series have the same key exactly where they have the
    /// same measurement and, for each tag key, the same values in the same order.
    ///
    /// ```
    /// let key = |text| influxdb_line_protocol::parse_lines(text).next().unwrap().unwrap().series.key();
    /// assert_eq!(key("m,b=2,a=1 f=1i"), "m,a=1,b=2");
    /// assert_eq!(key("m,a=1\\,b\\=2 f=1i"), "m,a=1\\,b\\=2");
    /// assert_eq!(key("m,,=v f=1i"), key("m,\\,=v f=1i"));
    /// ```
    pub fn key(&self) -> String {
        let tags = self.tag_set.as_deref().unwrap_or_default();
        if self.is_plain() && tags.windows(2).all(|two| two[0].0 <= two[1].0) {
            return self.based(tags.iter());
        }
        let (line, tags) = self.handed();
        border::put_out(border::lp_line_key, &line, &tags, |answer, bytes| match answer {
            answer::WRITTEN => border::text_of(bytes).to_owned(),
            _ => unreachable!("a series was refused"),
        })
    }

    /// Whether the base of this series is safe to group by: no measurement and no tag value holds a comma, no tag key an `=`,
    /// and no name is a comma, a space or, in a tag, an `=` alone.
    ///
    /// Where two series that were read are safe and have bases, their bases are the same exactly where measurement and tags are.
    ///
    /// ```
    /// let line = influxdb_line_protocol::parse_lines("m,a=1\\,b\\=2 f=1i").next().unwrap().unwrap();
    /// assert!(!line.series.is_base_safe());
    /// assert_eq!(line.series.generate_base().unwrap(), "m,a=1,b=2");
    /// ```
    pub fn is_base_safe(&self) -> bool {
        let (line, tags) = self.handed();
        border::is_base_safe(&line, &tags)
    }
}

/// Shown as line protocol.
impl fmt::Display for Series<'_> {
    fn fmt(&self, f: &mut fmt::Formatter<'_>) -> fmt::Result {
        show_measurement(&self.measurement, f)?;
        let Some(tags) = &self.tag_set else { return Ok(()) };
        if tags.is_empty() {
            f.write_str(",")?;
        }
        for (key, value) in tags {
            f.write_str(",")?;
            show_name(key, f)?;
            f.write_str("=")?;
            show_name(value, f)?;
        }
        Ok(())
    }
}

/// Shown as line protocol, but that strings have no quotes. A line that is made without fields is shown without them.
impl fmt::Display for ParsedLine<'_> {
    fn fmt(&self, f: &mut fmt::Formatter<'_>) -> fmt::Result {
        self.series.fmt(f)?;
        for (place, (key, value)) in self.field_set.iter().enumerate() {
            f.write_str(if place == 0 { " " } else { "," })?;
            show_name(key, f)?;
            f.write_str("=")?;
            value.fmt(f)?;
        }
        self.timestamp.map_or(Ok(()), |timestamp| write!(f, " {timestamp}"))
    }
}

/// Shown as line protocol, but that strings have no quotes.
impl fmt::Display for FieldValue<'_> {
    fn fmt(&self, f: &mut fmt::Formatter<'_>) -> fmt::Result {
        match self {
            Self::I64(value) => write!(f, "{value}i"),
            Self::U64(value) => write!(f, "{value}u"),
            Self::F64(value) => write!(f, "{value}"),
            Self::String(text) => show_escaped(text, |byte| byte == b'"', f),
            Self::Boolean(value) => write!(f, "{value}"),
        }
    }
}
