//! The interface of the crate `influxdb-line-protocol` 2.0.0, over the crate of the proved library.
//!
//! A program that asks for `influxdb-line-protocol = "2"` takes this crate by `[patch.crates-io]`, and needs no other change. Each item
//! is the item of the same name in the newer crate, which has more: a program that asks for that crate can use both, since their types are
//! the same.
#![warn(missing_docs, rust_2018_idioms)]

pub use library::{
    builder, parse_lines, split_lines, Error, EscapedStr, FieldSet, FieldValue, LineProtocolBuilder, Measurement, ParsedLine, Result, Series, TagSet,
};
