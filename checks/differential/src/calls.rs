//! Calls of the builder: the same ones to both.

use crate::texts::{self, Seeded};
use influxdb_line_protocol::builder::{
    AfterField, AfterMeasurement, AfterTimestamp, BeforeMeasurement, FieldValue,
};
use influxdb_line_protocol::LineProtocolBuilder;
use std::fmt;

/// A float by its text, for the crate's builder.
pub struct Literal<'a>(pub &'a str);

impl FieldValue for Literal<'_> {
    fn fmt(&self, f: &mut fmt::Formatter<'_>) -> fmt::Result {
        f.write_str(self.0)
    }
}

/// What makes a name.
pub type Name = fn(&mut Seeded) -> String;

type Building<S> = LineProtocolBuilder<Vec<u8>, S>;

enum Lines {
    Closed(Building<BeforeMeasurement>),
    Measured(Building<AfterMeasurement>),
    Fielded(Building<AfterField>),
    Stamped(Building<AfterTimestamp>),
}

/// Calls as `crates/lp_checks` spells them, and what the crate's builder writes for them.
pub struct Calls {
    pub program: Vec<u8>,
    pub built: Vec<u8>,
}

/// Spells a call: a letter and two texts.
pub fn spell_call(program: &mut Vec<u8>, letter: u8, key: &str, text: &str) {
    program.push(letter);
    for text in [key, text] {
        program.extend_from_slice(&(text.len() as u32).to_le_bytes());
        program.extend_from_slice(text.as_bytes());
    }
}

// A field of either state: both have a call of that name.
macro_rules! field {
    ($builder:expr, $seeded:expr, $name:expr, $program:expr) => {{
        let key = $name($seeded);
        match $seeded.below(5) {
            0 => {
                let value = $seeded.next() as i64 >> $seeded.below(64);
                spell_call($program, b'i', &key, &value.to_string());
                $builder.field(&key, value)
            }
            1 => {
                let value = $seeded.next() >> $seeded.below(64);
                spell_call($program, b'u', &key, &value.to_string());
                $builder.field(&key, value)
            }
            2 => {
                let value = $seeded.once_in(2);
                spell_call($program, b'b', &key, &value.to_string());
                $builder.field(&key, value)
            }
            3 => {
                let value = texts::literal($seeded);
                spell_call($program, b'f', &key, &value);
                $builder.field(&key, Literal(&value))
            }
            _ => {
                let value = texts::loose_text($seeded);
                spell_call($program, b's', &key, &value);
                $builder.field(&key, value.as_str())
            }
        }
    }};
}

fn call(lines: Lines, seeded: &mut Seeded, name: Name, program: &mut Vec<u8>) -> Lines {
    match lines {
        Lines::Closed(builder) => {
            let name = name(seeded);
            spell_call(program, b'm', &name, "");
            Lines::Measured(builder.measurement(&name))
        }
        Lines::Measured(builder) if seeded.once_in(2) => {
            let (key, value) = (name(seeded), name(seeded));
            spell_call(program, b't', &key, &value);
            Lines::Measured(builder.tag(&key, &value))
        }
        Lines::Measured(builder) => Lines::Fielded(field!(builder, seeded, name, program)),
        Lines::Fielded(builder) => match seeded.below(4) {
            0 => {
                spell_call(program, b'.', "", "");
                Lines::Closed(builder.close_line())
            }
            1 => {
                let timestamp = seeded.next() as i64 >> seeded.below(64);
                spell_call(program, b'@', "", &timestamp.to_string());
                Lines::Stamped(builder.timestamp(timestamp))
            }
            _ => Lines::Fielded(field!(builder, seeded, name, program)),
        },
        Lines::Stamped(builder) => {
            spell_call(program, b'.', "", "");
            Lines::Closed(builder.close_line())
        }
    }
}

/// A few calls, of names that `name` makes, and those that close the last line.
pub fn calls(seeded: &mut Seeded, name: Name) -> Calls {
    let mut program = Vec::new();
    let mut lines = Lines::Closed(LineProtocolBuilder::new());
    let few = seeded.below(16);
    for made in 0.. {
        lines = match lines {
            Lines::Closed(builder) if made >= few => {
                return Calls {
                    program,
                    built: builder.build(),
                };
            }
            lines => call(lines, seeded, name, &mut program),
        };
    }
    unreachable!("a line is closed after a while")
}
