//! Texts that may have had escapes.
use std::{cmp::Ordering, fmt, ops::Deref};

/// A text of the input: a part of it, or a copy without its escapes.
#[derive(Debug, Clone, Eq, Hash)]
pub enum EscapedStr<'a> {
    /// A part of the input, which has no escape.
    SingleSlice(&'a str),
    /// A copy without the escapes.
    CopiedValue(String),
}

impl EscapedStr<'_> {
    pub(crate) fn is_escaped(&self) -> bool {
        matches!(self, Self::CopiedValue(_))
    }

    /// The text without its escapes.
    pub fn as_str(&self) -> &str {
        self
    }
}

impl Deref for EscapedStr<'_> {
    type Target = str;

    fn deref(&self) -> &str {
        match self {
            EscapedStr::SingleSlice(text) => text,
            EscapedStr::CopiedValue(text) => text,
        }
    }
}

impl fmt::Display for EscapedStr<'_> {
    fn fmt(&self, f: &mut fmt::Formatter<'_>) -> fmt::Result {
        self.as_str().fmt(f)
    }
}

impl PartialEq for EscapedStr<'_> {
    fn eq(&self, other: &Self) -> bool {
        self.as_str() == other.as_str()
    }
}

impl PartialEq<&str> for EscapedStr<'_> {
    fn eq(&self, other: &&str) -> bool {
        self.as_str() == *other
    }
}

impl PartialEq<String> for EscapedStr<'_> {
    fn eq(&self, other: &String) -> bool {
        self.as_str() == other
    }
}

impl PartialOrd for EscapedStr<'_> {
    fn partial_cmp(&self, other: &Self) -> Option<Ordering> {
        Some(self.cmp(other))
    }
}

impl Ord for EscapedStr<'_> {
    fn cmp(&self, other: &Self) -> Ordering {
        self.as_str().cmp(other.as_str())
    }
}

impl<'a> From<&'a str> for EscapedStr<'a> {
    fn from(text: &'a str) -> Self {
        Self::SingleSlice(text)
    }
}

impl From<EscapedStr<'_>> for String {
    fn from(text: EscapedStr<'_>) -> Self {
        match text {
            EscapedStr::SingleSlice(text) => text.into(),
            EscapedStr::CopiedValue(text) => text,
        }
    }
}

impl From<&EscapedStr<'_>> for String {
    fn from(text: &EscapedStr<'_>) -> Self {
        text.as_str().into()
    }
}
