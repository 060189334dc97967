//! Which lines InfluxDB 1.x and VictoriaMetrics read as the strict reader does.
use crate::border::{verdict, Limits};
use std::fmt;

/// The servers to which a line is portable or not.
#[derive(Clone, Copy, Debug, PartialEq, Eq)]
pub enum Servers {
    /// InfluxDB 1.x.
    Influx1,
    /// VictoriaMetrics.
    Victoria,
    /// Both.
    All,
}

// The clauses that concern each server, with that of no line.
const OF_INFLUX1: u64 = 0x1feeff1;
const OF_VICTORIA: u64 = 0x1fe411a9f;

// The bit of what is no line.
const NOT_A_LINE: u64 = 1;

impl Servers {
    // The bits of the clauses that concern these servers.
    fn mask(self) -> u64 {
        match self {
            Self::Influx1 => OF_INFLUX1,
            Self::Victoria => OF_VICTORIA,
            Self::All => OF_INFLUX1 | OF_VICTORIA,
        }
    }
}

// The clauses, each with the place of its bit and its words.
macro_rules! clauses {
    ($($name:ident = $place:literal, $words:literal;)*) => {
        /// A clause of what is portable, named by what breaks it. Its number is the place of its bit.
        ///
        /// ```
        /// assert_eq!(influxdb_line_protocol::Clause::RepeatedField.to_string(), "two fields have one key");
        /// ```
        #[derive(Clone, Copy, Debug, PartialEq, Eq, PartialOrd, Ord, Hash)]
        #[non_exhaustive]
        #[repr(u8)]
        pub enum Clause {
            $(#[doc = concat!("It is broken if ", $words, ".")] $name = $place,)*
        }

        impl Clause {
            /// The clauses, in the order in which [`Broken::first`] looks at them.
            pub const ALL: &'static [Clause] = &[$(Clause::$name,)*];
        }

        impl fmt::Display for Clause {
            fn fmt(&self, f: &mut fmt::Formatter<'_>) -> fmt::Result {
                f.write_str(match self {
                    $(Self::$name => $words,)*
                })
            }
        }
    };
}

clauses! {
    LeadingBlank = 1, "a space or a tab comes before the line";
    TrailingSpace = 2, "a space ends the line";
    Newline = 3, "the line holds a newline: in a string, or escaped";
    MeasurementEquals = 4, "an equals sign is escaped in the measurement";
    MeasurementEscape = 5, "a backslash or a quote is escaped in the measurement";
    TagEscape = 6, "a backslash is escaped in a tag key or a tag value";
    TagKeyComma = 7, "a comma is bare in a tag key";
    TagValueEquals = 8, "an equals sign is bare in a tag value";
    RepeatedTag = 9, "two tags have one key";
    FieldKeyEscape = 10, "a backslash or a quote is escaped in a field key";
    FieldKeyComma = 11, "a comma is bare in a field key";
    FieldKeyQuote = 12, "a field key holds a quote";
    LongSeries = 13, "the series, four bytes and a field key are longer than 65,535 bytes";
    Unsigned = 14, "a value is an unsigned integer";
    InfiniteFloat = 15, "a float is too large for a finite number";
    RoundedFloat = 16, "a float has an exponent, or takes over 310 bytes";
    LeadingNul = 17, "the first field key begins with a byte 0";
    TimeOutOfRange = 18, "the timestamp is the greatest of 64 bits, or one of the two least";
    TagCount = 19, "the tags are 100, 200, 400, 800 and so on";
    TimeName = 20, "a tag key or a field key is `time`";
    SystemName = 21, "the measurement or a field key is a name of the server's own";
    RepeatedField = 22, "two fields have one key";
    KeySeparator = 23, "the series holds `#!~`";
    ControlByte = 24, "the measurement or a field key holds a byte 0 or a carriage return";
    NameLabel = 25, "a tag key is `__name__`";
    LongTagKey = 26, "a tag key is longer than 256 bytes";
    LongTagValue = 27, "a tag value is longer than 16,384 bytes";
    LongMetricName = 28, "the measurement, a byte and a field key are longer than 16,384 bytes";
    LongLabels = 29, "the series, a byte and a field key are longer than 32,000 bytes";
    TooManyTags = 30, "there are more tags than the limit";
    LongLine = 31, "the line is longer than the limit";
    TimeNotKept = 32, "the timestamp is before or after what is kept";
}

impl Clause {
    // Its bit.
    fn bit(self) -> u64 {
        1 << self as u8
    }

    /// Whether it concerns these servers: one of them reads a line that breaks it otherwise.
    ///
    /// ```
    /// use influxdb_line_protocol::{Clause, Servers};
    ///
    /// assert!(Clause::Unsigned.concerns(Servers::Influx1) && !Clause::Unsigned.concerns(Servers::Victoria));
    /// ```
    pub fn concerns(self, servers: Servers) -> bool {
        self.bit() & servers.mask() != 0
    }
}

/// The clauses that a line breaks. The default is none.
#[derive(Clone, Copy, Default, PartialEq, Eq, Hash)]
pub struct Broken(u64);

impl Broken {
    /// A bit for each clause, at the place that its number says.
    pub fn bits(self) -> u64 {
        self.0
    }

    /// Whether no clause is broken: the line is portable to all servers.
    pub fn is_empty(self) -> bool {
        self.0 == 0
    }

    /// Whether a clause is broken.
    pub fn contains(self, clause: Clause) -> bool {
        self.0 & clause.bit() != 0
    }

    /// Whether no clause is broken that concerns these servers.
    pub fn is_portable(self, servers: Servers) -> bool {
        self.0 & servers.mask() == 0
    }

    /// The first clause that is broken of those that concern these servers. `None`: the line is portable to them.
    pub fn first(self, servers: Servers) -> Option<Clause> {
        Broken(self.0 & servers.mask()).iter().next()
    }

    /// The clauses that are broken, in their order.
    pub fn iter(self) -> impl Iterator<Item = Clause> {
        Clause::ALL.iter().copied().filter(move |clause| self.contains(*clause))
    }
}

impl fmt::Debug for Broken {
    fn fmt(&self, f: &mut fmt::Formatter<'_>) -> fmt::Result {
        f.debug_set().entries(self.iter()).finish()
    }
}

/// The clauses that a line breaks, with these limits. A newline at the end of the text is left out. What comes before the line, as
/// blanks, is of the line.
///
/// `None`: the text is not just one line for the strict reader, as is a comment; or it has 4 GiB or more.
///
/// It takes no memory if the line has at most eight tags and four fields, and no escape in a name or a string. A refused request for
/// memory ends the program.
///
/// ```
/// use influxdb_line_protocol::{broken_clauses, Clause, Limits, Servers};
///
/// let broken = broken_clauses(&Limits::default(), "m f=1u,f=1e3 1590488773254420000").unwrap();
/// assert!(broken.iter().eq([Clause::Unsigned, Clause::RoundedFloat, Clause::RepeatedField]));
/// assert_eq!(broken.first(Servers::Victoria), Some(Clause::RoundedFloat));
/// assert!(broken_clauses(&Limits::default(), "m f=1,").is_none());
/// ```
pub fn broken_clauses(limits: &Limits, text: &str) -> Option<Broken> {
    match verdict(limits, text.strip_suffix('\n').unwrap_or(text))? {
        NOT_A_LINE => None,
        bits => Some(Broken(bits)),
    }
}

/// Whether a text is a line that these servers read as the strict reader does, with these limits: [`broken_clauses`] gives none that
/// concerns them.
///
/// ```
/// use influxdb_line_protocol::{is_portable, Limits, Servers};
///
/// let body = "m f=1\nm f=1u\nm,a=x\\\\y f=1\n";
/// let kept: Vec<_> = body.lines().filter(|line| is_portable(Servers::Influx1, &Limits::default(), line)).collect();
/// assert_eq!(kept, ["m f=1"]);
/// assert!(is_portable(Servers::Victoria, &Limits::default(), "m f=1u"));
/// ```
pub fn is_portable(servers: Servers, limits: &Limits, text: &str) -> bool {
    broken_clauses(limits, text).is_some_and(|broken| broken.is_portable(servers))
}
