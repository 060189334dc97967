//! The builder of lines, as the original crate has it: its types let no line be half built, and it writes any name.
use bytes::BufMut;
use std::{
    fmt::{self, Write},
    marker::PhantomData,
};

#[doc(hidden)]
#[derive(Clone, Copy, Debug, Default)]
pub struct BeforeMeasurement;
#[doc(hidden)]
#[derive(Clone, Copy, Debug)]
pub struct AfterMeasurement;
#[doc(hidden)]
#[derive(Clone, Copy, Debug)]
pub struct AfterTag;
#[doc(hidden)]
#[derive(Clone, Copy, Debug)]
pub struct AfterField;
#[doc(hidden)]
#[derive(Clone, Copy, Debug)]
pub struct AfterTimestamp;

/// Writes lines into a [`BufMut`] as the original crate does: any name, also one that is read as two lines. So for texts of others
/// use a [`LineWriter`](crate::LineWriter), which refuses these.
///
/// Each call writes its part at once, with the escapes that it needs.
///
/// ```
/// use influxdb_line_protocol::LineProtocolBuilder;
///
/// let lines = LineProtocolBuilder::new()
///     .measurement("disk usage")
///     .tag("host", "a")
///     .field("free", 42.5)
///     .timestamp(7)
///     .close_line()
///     .build();
/// assert_eq!(lines, b"disk\\ usage,host=a free=42.5 7\n");
/// ```
///
/// A line needs a field:
///
/// ```compile_fail
/// # use influxdb_line_protocol::LineProtocolBuilder;
/// LineProtocolBuilder::new().measurement("m").tag("k", "v").close_line();
/// ```
///
/// and its tags come before its fields:
///
/// ```compile_fail
/// # use influxdb_line_protocol::LineProtocolBuilder;
/// LineProtocolBuilder::new().measurement("m").field("f", 1.0).tag("k", "v").close_line();
/// ```
#[derive(Debug, Default)]
pub struct LineProtocolBuilder<B, S = BeforeMeasurement>
where
    B: BufMut,
{
    buf: B,
    _marker: PhantomData<S>,
}

impl LineProtocolBuilder<Vec<u8>, BeforeMeasurement> {
    /// A builder over an empty buffer.
    pub fn new() -> Self {
        Self::new_with(vec![])
    }
}

impl<B: BufMut> LineProtocolBuilder<B, BeforeMeasurement> {
    /// A builder that writes after what `buf` holds.
    pub fn new_with(buf: B) -> Self {
        Self { buf, _marker: PhantomData }
    }

    /// Begins a line.
    pub fn measurement(self, measurement: &str) -> LineProtocolBuilder<B, AfterMeasurement> {
        self.put(|out| put_escaped(out, measurement, |byte| matches!(byte, b',' | b' ' | b'\\')))
    }

    /// The buffer.
    pub fn build(self) -> B {
        self.buf
    }
}

impl<B: BufMut> LineProtocolBuilder<B, AfterMeasurement> {
    /// Adds a tag.
    pub fn tag(self, tag_key: &str, tag_value: &str) -> Self {
        self.put(|out| {
            out.write_str(",")?;
            put_name(out, tag_key)?;
            out.write_str("=")?;
            put_name(out, tag_value)
        })
    }

    /// Adds the first field. No tag can be added after it.
    pub fn field<F>(self, field_key: &str, field_value: F) -> LineProtocolBuilder<B, AfterField>
    where
        F: FieldValue,
    {
        self.put_field(" ", field_key, field_value)
    }
}

impl<B: BufMut> LineProtocolBuilder<B, AfterField> {
    /// Adds one more field.
    pub fn field<F: FieldValue>(self, field_key: &str, field_value: F) -> Self {
        self.put_field(",", field_key, field_value)
    }

    /// Adds the timestamp, which is the last part of a line.
    pub fn timestamp(self, ts: i64) -> LineProtocolBuilder<B, AfterTimestamp> {
        self.put(|out| write!(out, " {ts}"))
    }

    /// Ends the line.
    pub fn close_line(self) -> LineProtocolBuilder<B, BeforeMeasurement> {
        self.put(|out| out.write_str("\n"))
    }
}

impl<B: BufMut> LineProtocolBuilder<B, AfterTimestamp> {
    /// Ends the line.
    pub fn close_line(self) -> LineProtocolBuilder<B, BeforeMeasurement> {
        self.put(|out| out.write_str("\n"))
    }
}

impl<B: BufMut, S> LineProtocolBuilder<B, S> {
    fn put<T>(self, put: impl FnOnce(&mut Out<B>) -> fmt::Result) -> LineProtocolBuilder<B, T> {
        let mut out = Out(self.buf);
        put(&mut out).expect("each value has a text");
        LineProtocolBuilder { buf: out.0, _marker: PhantomData }
    }

    fn put_field<T>(self, front: &str, key: &str, value: impl FieldValue) -> LineProtocolBuilder<B, T> {
        self.put(|out| {
            out.write_str(front)?;
            put_name(out, key)?;
            out.write_str("=")?;
            write!(out, "{}", Shown(value))
        })
    }
}

// A buffer that texts are written to.
struct Out<B>(B);

impl<B: BufMut> Write for Out<B> {
    fn write_str(&mut self, text: &str) -> fmt::Result {
        self.0.put_slice(text.as_bytes());
        Ok(())
    }
}

// Writes a tag key, a tag value or a field key.
fn put_name(out: &mut impl Write, name: &str) -> fmt::Result {
    put_escaped(out, name, |byte| matches!(byte, b',' | b'=' | b' ' | b'\\'))
}

// Writes a text with a backslash before each byte that takes one.
fn put_escaped(out: &mut impl Write, text: &str, takes_backslash: impl Fn(u8) -> bool) -> fmt::Result {
    let mut begin = 0;
    for (at, byte) in text.bytes().enumerate() {
        if takes_backslash(byte) {
            out.write_str(&text[begin..at])?;
            out.write_str("\\")?;
            begin = at;
        }
    }
    out.write_str(&text[begin..])
}

struct Shown<F>(F);

impl<F: FieldValue> fmt::Display for Shown<F> {
    fn fmt(&self, f: &mut fmt::Formatter<'_>) -> fmt::Result {
        self.0.fmt(f)
    }
}

/// What can be the value of a field: a type that shows itself as line protocol.
pub trait FieldValue {
    /// Shows the value as line protocol.
    fn fmt(&self, f: &mut fmt::Formatter<'_>) -> fmt::Result;
}

impl FieldValue for &str {
    fn fmt(&self, f: &mut fmt::Formatter<'_>) -> fmt::Result {
        f.write_str("\"")?;
        put_escaped(f, self, |byte| matches!(byte, b'"' | b'\\'))?;
        f.write_str("\"")
    }
}

impl FieldValue for f64 {
    fn fmt(&self, f: &mut fmt::Formatter<'_>) -> fmt::Result {
        write!(f, "{self}")
    }
}

impl FieldValue for bool {
    fn fmt(&self, f: &mut fmt::Formatter<'_>) -> fmt::Result {
        write!(f, "{self}")
    }
}

impl FieldValue for i64 {
    fn fmt(&self, f: &mut fmt::Formatter<'_>) -> fmt::Result {
        write!(f, "{self}i")
    }
}

impl FieldValue for u64 {
    fn fmt(&self, f: &mut fmt::Formatter<'_>) -> fmt::Result {
        write!(f, "{self}u")
    }
}
