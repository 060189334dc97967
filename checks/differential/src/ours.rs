//! This library's calls, by the static library of crates/lp_checks, and by rows.c.

use crate::calls;

/// Declares calls that make a report: each takes the words that it is declared with, and then the room of the report.
macro_rules! reports {
    ($($name:ident($($word:ident: $kind:ty),*);)*) => {
        extern "C" {
            $(fn $name($($word: $kind,)* out: *mut u8, room: usize, ends: *mut u64, entries: usize) -> u64;)*
        }
    };
}

reports! {
    rows_pieces(dialect: u32, text: *const u8, len: usize);
    rows_items(dialect: u32, text: *const u8, len: usize);
    rows_rebuilt(dialect: u32, text: *const u8, len: usize);
    lp_checks_items(way: u32, dialect: u32, text: *const u8, len: usize);
    lp_checks_build(program: *const u8, len: usize, reserved: u64, again: bool, refused_at: *mut u64);
}

#[rustfmt::skip]
extern "C" {
    fn lp_checks_relay(
        way: u32, letters: *const u8, letters_len: usize, number: i64, input: *const u8, len: usize, inputs: *const u8, inputs_len: usize,
        steps: *const usize, steps_len: usize, reader: *mut u64,
        out: *mut u8, room: usize, out_steps: *const usize, out_steps_len: usize, out_told: *mut u64,
        err: *mut u8, err_room: usize, err_steps: *const usize, err_steps_len: usize, err_told: *mut u64,
        pieces: *mut u8, pieces_room: usize, pieces_told: *mut u64, ending: *mut u64, kinds: *mut u64,
    ) -> u8;
}

/// Gives methods that fill the report by a call with these words.
macro_rules! fill_by {
    ($($(#[$doc:meta])* $name:ident($($word:ident: $kind:ty),*) = $call:ident($($given:expr),*);)*) => {
        $($(#[$doc])*
        pub fn $name(&mut self, $($word: $kind),*) -> &Self {
            self.fill(|out, room, ends, entries| unsafe { $call($($given,)* out, room, ends, entries) })
        })*
    };
}

/// The number of the crate's dialect.
pub const CRATE: u32 = 0;

// The ways of `lp_checks_items` and of `lp_checks_relay`, as lp_checks.h names them.
const ITEMS: u32 = 0;
const EVENTS: u32 = 2;
const BASES: u32 = 4;
const SHOWN: u32 = 6;
const RELAY: u32 = 0;
const RUN: u32 = 1;

/// The room of a report, and of what a run writes: bytes, and the ends of entries.
const ROOM: usize = 1 << 21;
const ENTRIES: usize = 1 << 16;

/// Entries of text, as the library reports them.
pub struct Report {
    out: Vec<u8>,
    ends: Vec<u64>,
    count: usize,
}

impl Report {
    pub fn new() -> Self {
        Report {
            out: vec![0; ROOM],
            ends: vec![0; ENTRIES],
            count: 0,
        }
    }

    pub fn count(&self) -> usize {
        self.count
    }

    /// The entry at this place; each is a part of the report.
    pub fn entry(&self, place: usize) -> &str {
        let start = if place == 0 {
            0
        } else {
            self.ends[place - 1] as usize
        };
        std::str::from_utf8(&self.out[start..self.ends[place] as usize]).expect("an entry is UTF-8")
    }

    fn fill(&mut self, call: impl FnOnce(*mut u8, usize, *mut u64, usize) -> u64) -> &Self {
        let (room, entries) = (self.out.len(), self.ends.len());
        self.count = call(self.out.as_mut_ptr(), room, self.ends.as_mut_ptr(), entries) as usize;
        assert!(self.count <= entries, "a report has room for its entries");
        assert!(
            self.count == 0 || self.ends[self.count - 1] as usize <= room,
            "a report has room for its text"
        );
        self
    }

    fill_by! {
        pieces(text: &str) = rows_pieces(CRATE, text.as_ptr(), text.len());
        items(text: &str) = lp_checks_items(ITEMS, CRATE, text.as_ptr(), text.len());
        events(text: &str) = lp_checks_items(EVENTS, CRATE, text.as_ptr(), text.len());
        blocks(text: &str) = rows_items(CRATE, text.as_ptr(), text.len());
        bases(text: &str) = lp_checks_items(BASES, CRATE, text.as_ptr(), text.len());
        shown(text: &str) = lp_checks_items(SHOWN, CRATE, text.as_ptr(), text.len());
        /// One entry: what the calls write.
        build(program: &[u8]) = lp_checks_build(program.as_ptr(), program.len(), 0, false, &mut u64::MAX.clone());
        /// Three entries: the batch, the fault lines, and how many items were carried and refused.
        rebuild(dialect: u32, text: &str) = rows_rebuilt(dialect, text.as_ptr(), text.len());
    }

    /// One entry: all lines of the text, as they are written again.
    pub fn written(&mut self, text: &str) -> &Self {
        let mut program = Vec::new();
        calls::spell_call(&mut program, b'l', text, "");
        self.build(&program)
    }
}

/// What a run or a relay writes.
pub struct Written {
    out: Vec<u8>,
    err: Vec<u8>,
    // How many bytes each of the two holds, and more of its device.
    out_told: [u64; 3],
    err_told: [u64; 3],
}

impl Written {
    pub fn new() -> Self {
        Written {
            out: vec![0; ROOM],
            err: vec![0; ROOM],
            out_told: [0; 3],
            err_told: [0; 3],
        }
    }

    /// The lines.
    pub fn out(&self) -> &[u8] {
        &self.out[..self.out_told[0] as usize]
    }

    /// The fault lines.
    pub fn err(&self) -> &[u8] {
        &self.err[..self.err_told[0] as usize]
    }

    // A run, or a relay, of a text that comes in parts of so many bytes.
    fn fill(&mut self, way: u32, dialect: u32, text: &str, part: usize) -> &Self {
        let letters = ["", "s", "n"][dialect as usize];
        let (text, len, none) = (text.as_ptr(), text.len(), [].as_ptr());
        let (out, err) = (self.out.as_mut_ptr(), self.err.as_mut_ptr());
        (self.out_told, self.err_told) = ([0; 3], [0; 3]);
        #[rustfmt::skip]
        let answer = unsafe {
            lp_checks_relay(
                way, letters.as_ptr(), letters.len(), 0, text, len, text, 0, &part, 1, [0; 3].as_mut_ptr(),
                out, ROOM, none, 0, self.out_told.as_mut_ptr(), err, ROOM, none, 0, self.err_told.as_mut_ptr(),
                [0; 1].as_mut_ptr(), 0, [0; 3].as_mut_ptr(), [0; 3].as_mut_ptr(), [0; 19].as_mut_ptr(),
            )
        };
        assert_eq!(answer, 0, "a run ends without a fault");
        self
    }

    pub fn run(&mut self, dialect: u32, text: &str) -> &Self {
        self.fill(RUN, dialect, text, ROOM)
    }

    /// Relays a text that comes in parts of so many bytes.
    pub fn relay(&mut self, dialect: u32, text: &str, part: usize) -> &Self {
        self.fill(RELAY, dialect, text, part)
    }
}
