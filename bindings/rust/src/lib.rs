//! [InfluxDB line protocol], read and written by a proved library: the names and the types of the crate
//! `influxdb-line-protocol` 2.0.0 over the static library `lp_c`.
//!
//! - [`parse_lines`] reads a text line by line, [`split_lines`] cuts it; [`parse_lines_in`] and [`split_lines_in`] take a [`Dialect`].
//! - [`LineReader`] cuts what a reader gives, as it comes, and tells where each line begins.
//! - [`LineWriter`] writes lines that are read back as what was handed in, and refuses any other, as [`ParsedLine::is_admitted`] says.
//! - [`rebuild`] writes all lines of a text again.
//! - [`Series::key`] is a text that a series has alone, to group lines by.
//! - [`broken_clauses`] and [`is_portable`] tell whether other servers read a line as it is meant.
//! - [`LineProtocolBuilder`] writes whatever it is given, as that of the original crate does.
//!
//! [InfluxDB line protocol]: https://docs.influxdata.com/influxdb/v2.0/reference/syntax/line-protocol
#![warn(missing_docs, missing_debug_implementations, rust_2018_idioms)]
#![deny(unsafe_op_in_unsafe_fn, clippy::undocumented_unsafe_blocks)]

mod border;
pub mod builder;
mod dialect;
mod error;
mod escaped;
#[cfg(not(lp_heap))]
mod heap;
mod line;
mod portable;
mod reader;
mod reading;
mod rebuilt;
mod writer;

pub use border::Limits;
pub use builder::LineProtocolBuilder;
pub use dialect::Dialect;
pub use error::{Error, Result};
pub use escaped::EscapedStr;
pub use line::{FieldSet, FieldValue, Measurement, ParsedLine, Series, TagSet};
pub use portable::{broken_clauses, is_portable, Broken, Clause, Servers};
pub use reader::{LineError, LineReader, Piece, MAX_LINE};
pub use reading::{parse_lines, parse_lines_in, split_lines, split_lines_in, ParseLines, Place, SplitLines};
pub use rebuilt::{rebuild, Rebuilt};
pub use writer::{LineWriter, NotAdmitted};

#[cfg(doctest)]
#[doc = include_str!("../README.md")]
struct Readme;
