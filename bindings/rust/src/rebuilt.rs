//! A text whose lines are written again.
use crate::border::{self, answer};
use crate::Dialect;

/// What became of a text: its lines, written again, and a line for each item that is refused.
#[derive(Clone, Debug, Default, PartialEq, Eq)]
pub struct Rebuilt {
    /// The lines that are written again, each with its newline.
    pub batch: String,
    /// A line for each other item: its number, counted from 1, and what is wrong with it.
    pub faults: String,
    /// How many items are in `batch`.
    pub carried: usize,
    /// How many items are in `faults`.
    pub refused: usize,
}

/// Writes each line of a text again, by the rules of a dialect, and refuses each item that is a fault or is not admitted.
///
/// What is written is read as the same points and as nothing else, whatever text comes after it. A float goes out as it was spelled.
/// Beside the text and what is given, it takes memory for both a second time. A refused request for memory ends the program.
///
/// ```
/// use influxdb_line_protocol::{rebuild, Dialect};
///
/// let rebuilt = rebuild(Dialect::Strict, "m  f=t,g=1.50\nm f");
/// assert_eq!((rebuilt.carried, rebuilt.batch.as_str()), (1, "m f=true,g=1.50\n"));
/// assert_eq!((rebuilt.refused, rebuilt.faults.as_str()), (1, "item 2: No fields were provided\n"));
/// ```
pub fn rebuild(dialect: Dialect, input: &str) -> Rebuilt {
    let mut room = [vec![0; input.len() + 256], vec![0; input.len() + 256]];
    loop {
        let [batch, faults] = &mut room;
        let (answer, counts) = border::rebuild(dialect.number(), input, batch, faults);
        let [batch, faults] = room;
        let lens = [counts.batch_len, counts.faults_len];
        match answer {
            answer::WRITTEN => {
                let [batch, faults] = [text_of(batch, lens[0]), text_of(faults, lens[1])];
                return Rebuilt { batch, faults, carried: counts.carried, refused: counts.refused };
            }
            answer::MORE_ROOM => room = lens.map(|len| vec![0; len]),
            _ => unreachable!("a text was refused"),
        }
    }
}

// The text of the first bytes, in as much memory as it takes.
fn text_of(mut bytes: Vec<u8>, len: usize) -> String {
    bytes.truncate(len);
    bytes.shrink_to_fit();
    String::from_utf8(bytes).expect("the library puts out UTF-8")
}
