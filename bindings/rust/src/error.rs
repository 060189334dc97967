//! What is wrong with a line.
use nom::error::{ErrorKind, ParseError};
use std::{
    error, fmt,
    num::{ParseFloatError, ParseIntError},
};

/// What is wrong with a line.
#[derive(Debug)]
#[non_exhaustive]
pub enum Error {
    /// A key of the tags is repeated.
    DuplicateTag {
        /// The key.
        tag_key: String,
    },
    /// No line has this fault: each literal that is read as a float is one.
    FloatValueInvalid {
        /// What the standard library says of it.
        source: ParseFloatError,
        /// The literal.
        value: String,
    },
    // The faults of lines.
    /// The line does not begin with a measurement.
    MeasurementValueInvalid,
    /// The line has no field.
    FieldSetMissing,
    /// An integer is out of its range.
    IntegerValueInvalid {
        /// What the standard library says of it.
        source: ParseIntError,
        /// The number.
        value: String,
    },
    /// An unsigned integer is out of its range.
    UIntegerValueInvalid {
        /// What the standard library says of it.
        source: ParseIntError,
        /// The number.
        value: String,
    },
    /// A timestamp is out of its range.
    TimestampValueInvalid {
        /// What the standard library says of it.
        source: ParseIntError,
        /// The number.
        value: String,
    },
    /// A name ends in a backslash.
    EndsWithBackslash,
    /// Something is left after the last part that could be read.
    CannotParseEntireLine {
        /// What is left.
        trailing_content: String,
    },
    /// A comma comes after the measurement, and no tag after it.
    TagSetMalformed,
    // The end of these.
    /// No space comes after the measurement.
    GenericParsingError {
        /// What was looked for.
        kind: ErrorKind,
        /// Errors that led to this one.
        trace: Vec<Error>,
    },
}

/// A result whose error is an [`Error`] unless another is named.
pub type Result<T, E = Error> = std::result::Result<T, E>;

impl fmt::Display for Error {
    fn fmt(&self, f: &mut fmt::Formatter<'_>) -> fmt::Result {
        match self {
            Self::DuplicateTag { tag_key } => {
                write!(f, "Must not contain duplicate tags, but \"{tag_key}\" was repeated")
            }
            Self::FloatValueInvalid { value, .. } => write!(f, "Unable to parse floating-point value '{value}'"),
            // The faults of lines.
            Self::MeasurementValueInvalid => f.write_str("Invalid measurement was provided"),
            Self::FieldSetMissing => f.write_str("No fields were provided"),
            Self::IntegerValueInvalid { value, .. } => write!(f, "Unable to parse integer value '{value}'"),
            Self::UIntegerValueInvalid { value, .. } => {
                write!(f, "Unable to parse unsigned integer value '{value}'")
            }
            Self::TimestampValueInvalid { value, .. } => write!(f, "Unable to parse timestamp value '{value}'"),
            Self::EndsWithBackslash => {
                f.write_str("Measurements, tag keys and values, and field keys may not end with a backslash")
            }
            Self::CannotParseEntireLine { trailing_content } => {
                write!(f, "Could not parse entire line. Found trailing content: '{trailing_content}'")
            }
            Self::TagSetMalformed => f.write_str("Tag Set Malformed"),
            // The end of these.
            Self::GenericParsingError { kind, .. } => write!(f, "A generic parsing error occurred: {kind:?}"),
        }
    }
}

impl error::Error for Error {
    fn source(&self) -> Option<&(dyn error::Error + 'static)> {
        match self {
            Self::IntegerValueInvalid { source, .. }
            | Self::UIntegerValueInvalid { source, .. }
            | Self::TimestampValueInvalid { source, .. } => Some(source),
            Self::FloatValueInvalid { source, .. } => Some(source),
            _ => None,
        }
    }
}

impl ParseError<&str> for Error {
    fn from_error_kind(_input: &str, kind: ErrorKind) -> Self {
        Self::GenericParsingError { kind, trace: vec![] }
    }

    fn append(_input: &str, kind: ErrorKind, other: Self) -> Self {
        Self::GenericParsingError { kind, trace: vec![other] }
    }
}
