//! By whose rules a text is read, or a line is to read back.
use crate::border::dialect;

/// A dialect of line protocol: which rules hold.
#[derive(Clone, Copy, Debug, Default, PartialEq, Eq, Hash)]
pub enum Dialect {
    /// The rules of the original crate, which is the default.
    #[default]
    Crate,
    /// The same, but a comment ends at its own newline, whatever it holds; and a comma after the first field must have a second
    /// field after it: `m a=1i, 5` is no line.
    Strict,
    /// The strict rules, and every newline ends a line, whatever is open: a quote, a comment or a backslash. So whatever a line holds,
    /// each other line is read as if it were alone. No string holds a newline.
    NewlineDelimited,
}

impl Dialect {
    /// Its number in C.
    pub(crate) fn number(self) -> u32 {
        match self {
            Self::Crate => dialect::CRATE,
            Self::Strict => dialect::STRICT,
            Self::NewlineDelimited => dialect::NEWLINE_DELIMITED,
        }
    }
}
