//! The pieces of what a reader gives, as it comes.
use crate::border::{answer, Cuts};
use crate::Dialect;
use std::io::{self, BufRead, BufReader, ErrorKind, Read};
use std::{error, fmt, iter::FusedIterator, mem, ops::Deref, str};

/// The most bytes of a piece of a [`LineReader`], if no limit is given: 16 MiB, as in the program `lp_relay`.
pub const MAX_LINE: usize = 16 << 20;

/// A piece of what a reader gives, which holds one line or is blank, and where it begins. It stands for its text.
///
/// `T` is `&str` where the text is lent, and `String` where it is not.
#[derive(Clone, Copy, Debug, PartialEq, Eq, Hash)]
pub struct Piece<T> {
    /// The text, without the newline that ends it.
    pub text: T,
    /// The number of the line of the input in which it begins, counted from 1: how many newlines come before it, and one.
    pub line: u64,
    /// How many bytes of the input come before it.
    pub offset: u64,
}

impl<T: AsRef<str>> Deref for Piece<T> {
    type Target = str;

    fn deref(&self) -> &str {
        self.text.as_ref()
    }
}

impl<T: AsRef<str>> AsRef<str> for Piece<T> {
    fn as_ref(&self) -> &str {
        self.text.as_ref()
    }
}

/// Shown as its text.
impl<T: fmt::Display> fmt::Display for Piece<T> {
    fn fmt(&self, f: &mut fmt::Formatter<'_>) -> fmt::Result {
        self.text.fmt(f)
    }
}

/// Why a [`LineReader`] gives no piece.
#[derive(Debug)]
#[non_exhaustive]
pub enum LineError {
    /// The reader failed. Nothing is lost: the next call reads on.
    Io(io::Error),
    /// A piece has more bytes than it may have, and was passed over.
    TooLong {
        /// The number of the line in which it begins, as of a [`Piece`].
        line: u64,
        /// How many bytes of the input come before it.
        offset: u64,
        /// How many newlines the piece has, not counting the one that ends it.
        newlines: usize,
    },
    /// A piece is not UTF-8, and was passed over.
    NotUtf8 {
        /// The number of the line in which it begins, as of a [`Piece`].
        line: u64,
        /// How many bytes of the input come before it.
        offset: u64,
        /// How many newlines the piece has, not counting the one that ends it.
        newlines: usize,
        /// What is wrong with its bytes.
        source: str::Utf8Error,
    },
}

/// What is wrong, after the number of the line in which the piece begins: `line 3: the line is too long`.
impl fmt::Display for LineError {
    fn fmt(&self, f: &mut fmt::Formatter<'_>) -> fmt::Result {
        match self {
            Self::Io(source) => write!(f, "{source}"),
            Self::TooLong { line, .. } => write!(f, "line {line}: the line is too long"),
            Self::NotUtf8 { line, .. } => write!(f, "line {line}: the line is not UTF-8"),
        }
    }
}

impl error::Error for LineError {
    fn source(&self) -> Option<&(dyn error::Error + 'static)> {
        match self {
            Self::Io(source) => Some(source),
            Self::TooLong { .. } => None,
            Self::NotUtf8 { source, .. } => Some(source),
        }
    }
}

/// The pieces of what a reader gives, each with its place: those of [`split_lines`](crate::split_lines) for all of it, each as soon as
/// the newline has come that ends it.
///
/// It holds the piece that goes on, and nothing else: of a piece that is too long no byte. In the place of a piece that is too long or
/// not UTF-8 comes an error, and then the next pieces. Each byte is searched a few times at most, however few come at once. A reader that
/// is no [`BufRead`] is read by [`LineReader::from_read`].
///
/// ```
/// use influxdb_line_protocol::{parse_lines, LineReader};
///
/// let input = "cpu note=\"a\nb\" 1\ncpu usage=64i 2\n";
/// let mut lines = LineReader::new(input.as_bytes());
/// assert_eq!(lines.next_line().unwrap().unwrap().text, "cpu note=\"a\nb\" 1");
/// let piece = lines.next().unwrap().unwrap();
/// assert_eq!((piece.line, piece.offset), (3, 17)); // the piece before has two lines
/// assert_eq!(parse_lines(&piece).next().unwrap().unwrap().timestamp, Some(2));
/// assert_eq!(lines.next().unwrap().unwrap().text, ""); // what comes after the last newline
/// assert!(lines.next().is_none());
/// ```
#[derive(Debug)]
pub struct LineReader<R> {
    reader: R,
    cuts: Cuts,
    // The bytes of the piece that goes on, or of the one that was given, if it is not too long.
    held: Vec<u8>,
    is_too_long: bool,
    // Where that piece begins, and where the byte is that comes next.
    begin: Place,
    next: Place,
    is_given: bool,
    has_ended: bool,
}

// A place in the input.
#[derive(Clone, Copy, Debug)]
struct Place {
    line: u64,
    offset: u64,
}

impl<R: Read> LineReader<BufReader<R>> {
    /// The pieces of any reader, which is read by blocks of 64 KiB: else as [`LineReader::new_in`].
    ///
    /// ```no_run
    /// use influxdb_line_protocol::{Dialect, LineReader, MAX_LINE};
    ///
    /// let file = std::fs::File::open("lines.lp")?;
    /// for piece in LineReader::from_read(file, Dialect::NewlineDelimited, MAX_LINE) {
    ///     println!("{}", piece?);
    /// }
    /// # Ok::<(), Box<dyn std::error::Error>>(())
    /// ```
    pub fn from_read(reader: R, dialect: Dialect, limit: usize) -> Self {
        Self::new_in(BufReader::with_capacity(1 << 16, reader), dialect, limit)
    }
}

impl<R: BufRead> LineReader<R> {
    /// The pieces of a reader, by the rules of the original crate. A piece of more than [`MAX_LINE`] bytes is too long.
    pub fn new(reader: R) -> Self {
        Self::new_in(reader, Dialect::Crate, MAX_LINE)
    }

    /// The pieces of a reader, by the rules of a dialect. A piece of more than `limit` bytes is too long.
    ///
    /// ```
    /// use influxdb_line_protocol::{Dialect, LineError, LineReader};
    ///
    /// let mut lines = LineReader::new_in("# a=\"\nm f=1\nlonger f=1\nn f=1".as_bytes(), Dialect::Strict, 5);
    /// assert_eq!(lines.next().unwrap().unwrap().text, "# a=\"");
    /// assert_eq!(lines.next().unwrap().unwrap().text, "m f=1");
    /// let long = lines.next().unwrap().unwrap_err();
    /// assert!(matches!(long, LineError::TooLong { line: 3, offset: 12, newlines: 0 }));
    /// assert_eq!(long.to_string(), "line 3: the line is too long");
    /// assert_eq!(lines.next().unwrap().unwrap().text, "n f=1");
    /// ```
    pub fn new_in(reader: R, dialect: Dialect, limit: usize) -> Self {
        let start = Place { line: 1, offset: 0 };
        Self {
            reader,
            cuts: Cuts::begin(dialect.number(), limit),
            held: vec![],
            is_too_long: false,
            begin: start,
            next: start,
            is_given: false,
            has_ended: false,
        }
    }

    /// The next piece, lent until the next call, or the error in its place; `None` once the last piece was given.
    ///
    /// It asks for memory only if a piece is longer than those before it. It panics if a piece has more bytes than a `usize` may
    /// hold, which takes a limit and 2^64 bytes.
    pub fn next_line(&mut self) -> Option<Result<Piece<&str>, LineError>> {
        if mem::take(&mut self.is_given) {
            self.held.clear();
            self.begin = self.next;
        }
        if self.has_ended {
            return None;
        }
        if let Err(fault) = self.gather() {
            return Some(Err(LineError::Io(fault)));
        }
        self.is_given = true;
        let Place { line, offset } = self.begin;
        let newlines = (self.next.line - line - u64::from(!self.has_ended)) as usize;
        if mem::take(&mut self.is_too_long) {
            return Some(Err(LineError::TooLong { line, offset, newlines }));
        }
        Some(match str::from_utf8(&self.held) {
            Ok(text) => Ok(Piece { text, line, offset }),
            Err(source) => Err(LineError::NotUtf8 { line, offset, newlines, source }),
        })
    }

    // Reads up to the newline that ends the piece, or to the end.
    fn gather(&mut self) -> io::Result<()> {
        loop {
            let part = match self.reader.fill_buf() {
                Err(fault) if fault.kind() == ErrorKind::Interrupted => continue,
                part => part?,
            };
            if part.is_empty() {
                self.has_ended = true;
                return Ok(());
            }
            let (answer, cut) = self.cuts.next(part);
            let is_cut = cut < part.len();
            let passed = &part[..cut + usize::from(is_cut)];
            self.next.line += newlines_in(passed);
            self.next.offset += passed.len() as u64;
            if answer == answer::TOO_LONG {
                self.is_too_long = true;
                self.held.clear();
            } else {
                self.held.extend_from_slice(&part[..cut]);
            }
            let passed = passed.len();
            self.reader.consume(passed);
            if is_cut {
                return Ok(());
            }
        }
    }

    /// The reader. What it has given of a piece that goes on is lost.
    pub fn into_inner(self) -> R {
        self.reader
    }
}

// How many newlines there are.
fn newlines_in(bytes: &[u8]) -> u64 {
    bytes.iter().filter(|byte| **byte == b'\n').count() as u64
}

impl<R: BufRead> Iterator for LineReader<R> {
    type Item = Result<Piece<String>, LineError>;

    fn next(&mut self) -> Option<Self::Item> {
        Some(self.next_line()?.map(|Piece { text, line, offset }| Piece { text: text.to_owned(), line, offset }))
    }
}

impl<R: BufRead> FusedIterator for LineReader<R> {}
