//! The private readers that the original crate's tests call, over the public calls: each reads a whole line with the part in it.
use crate::{builder, parse_lines, split_lines, Error, EscapedStr, FieldValue, Measurement, ParsedLine, Series};

pub const DOUBLE_QUOTE: [char; 1] = ['"'];
type Read<'a, T> = nom::IResult<&'a str, T, Error>;

impl<'a> EscapedStr<'a> {
    pub fn from_slices(slices: &[&'a str]) -> EscapedStr<'a> {
        match slices {
            [] => EscapedStr::SingleSlice(""),
            [one] => EscapedStr::SingleSlice(one),
            more => EscapedStr::CopiedValue(more.join("")),
        }
    }
}

/// The string that the builder writes, without its quotes.
pub fn escape(text: &str, special: [char; 1]) -> String {
    assert_eq!(special, DOUBLE_QUOTE);
    let line = builder::LineProtocolBuilder::new().measurement("m").field("f", text).close_line().build();
    let line = String::from_utf8(line).unwrap();
    line["m f=\"".len()..line.len() - "\"\n".len()].to_owned()
}

/// What is after the longest front that has no item.
pub fn trim_leading(text: &str) -> &str {
    let ends = text.char_indices().map(|(at, _)| at).chain([text.len()]);
    let blank = ends.take_while(|&end| parse_lines(&text[..end]).next().is_none()).last();
    &text[blank.unwrap()..]
}

// `part` of the line that `front`, the first piece of `text` and `back` make; and what is left of `text` after as many bytes
// of the line as `part` tells, or else after the piece.
fn part<'a>(
    front: &str,
    text: &'a str,
    back: &str,
    part: impl Fn(ParsedLine<'_>) -> (EscapedStr<'_>, Option<usize>),
) -> Read<'a, EscapedStr<'a>> {
    let whole = format!("{front}{text}");
    if let Some(Err(Error::EndsWithBackslash)) = parse_lines(&whole).next() {
        return Err(nom::Err::Failure(Error::EndsWithBackslash));
    }
    let piece = split_lines(&whole).next().unwrap();
    let line = format!("{piece}{back}");
    let (read, taken) = part(parse_lines(&line).next().unwrap().map_err(nom::Err::Error)?);
    let end = taken.unwrap_or(piece.len()) - front.len();
    Ok((&text[end..], within(text, 0, read)))
}

// A text that was read of a copy of `text`, as one of `text` itself.
fn within<'a>(text: &'a str, at: usize, read: EscapedStr<'_>) -> EscapedStr<'a> {
    match read {
        EscapedStr::SingleSlice(slice) => EscapedStr::SingleSlice(&text[at..at + slice.len()]),
        EscapedStr::CopiedValue(copy) => EscapedStr::CopiedValue(copy),
    }
}

pub fn measurement(text: &str) -> Read<'_, Measurement<'_>> {
    part("", text, " f=1i", |line| (line.series.measurement, Some(line.series.raw_input.len())))
}

pub fn tag_key(text: &str) -> Read<'_, EscapedStr<'_>> {
    part("m,", text, "=v f=1i", |line| {
        let taken = line.series.raw_input.len() - "=v".len();
        (line.series.tag_set.unwrap().remove(0).0, Some(taken))
    })
}

pub fn tag_value(text: &str) -> Read<'_, EscapedStr<'_>> {
    part("m,k=", text, " f=1i", |line| {
        let taken = line.series.raw_input.len();
        (line.series.tag_set.unwrap().remove(0).1, Some(taken))
    })
}

pub fn field_key(text: &str) -> Read<'_, EscapedStr<'_>> {
    part("m ", text, "=1i", |mut line| {
        let (key, value) = line.field_set.remove(0);
        assert_eq!(value, FieldValue::I64(1));
        (key, None)
    })
}

pub fn series(text: &str) -> Read<'_, Series<'_>> {
    let line = format!("{text} f=1i");
    let parsed = parse_lines(&line).next().unwrap().map_err(nom::Err::Error)?;
    let place = |read: EscapedStr<'_>| {
        let at = (read.as_ptr() as usize).wrapping_sub(line.as_ptr() as usize);
        within(text, at, read)
    };
    let taken = parsed.series.raw_input.len();
    let tags = parsed.series.tag_set.map(|tags| tags.into_iter().map(|(key, value)| (place(key), place(value))).collect());
    let series = Series { raw_input: &text[..taken], measurement: place(parsed.series.measurement), tag_set: tags };
    Ok((&text[taken..], series))
}
