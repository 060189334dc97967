//! The calls and the layouts of `include/influxdb_line_protocol.h`.
use std::sync::atomic::{AtomicBool, Ordering};
use std::{alloc, marker::PhantomData, ops::Range};

/// What a call answers.
pub(crate) mod answer {
    pub(crate) const END: u32 = 0;
    pub(crate) const LINE: u32 = 1;
    pub(crate) const MORE_PARTS: u32 = 3;
    pub(crate) const MORE_ROOM: u32 = 4;
    pub(crate) const OUT_OF_MEMORY: u32 = 5;
    pub(crate) const WRITTEN: u32 = 7;
    pub(crate) const MORE_TEXT: u32 = 10;
    pub(crate) const TOO_LONG: u32 = 11;
    pub(crate) const NOT_ADMITTED: u32 = 12;
}

/// By whose rules a text is read, and a line is to read back.
pub(crate) mod dialect {
    pub(crate) const CRATE: u32 = 0;
    pub(crate) const STRICT: u32 = 1;
    pub(crate) const NEWLINE_DELIMITED: u32 = 2;
}

/// What a part is.
pub(crate) mod kind {
    pub(crate) const TAG: u32 = 0;
    pub(crate) const INTEGER: u32 = 1;
    pub(crate) const UNSIGNED: u32 = 2;
    pub(crate) const FLOAT: u32 = 3;
    pub(crate) const STRING: u32 = 4;
    pub(crate) const BOOLEAN: u32 = 5;
}

/// What is wrong with a line.
pub(crate) mod fault_kind {
    pub(crate) const DUPLICATE_TAG: u32 = 1;
    pub(crate) const MEASUREMENT_VALUE_INVALID: u32 = 2;
    pub(crate) const FIELD_SET_MISSING: u32 = 3;
    pub(crate) const INTEGER_VALUE_INVALID: u32 = 4;
    pub(crate) const UINTEGER_VALUE_INVALID: u32 = 5;
    pub(crate) const TIMESTAMP_VALUE_INVALID: u32 = 6;
    pub(crate) const ENDS_WITH_BACKSLASH: u32 = 7;
    pub(crate) const CANNOT_PARSE_ENTIRE_LINE: u32 = 8;
    pub(crate) const TAG_SET_MALFORMED: u32 = 9;
}

/// A text that is borrowed, or that lies in a room.
#[repr(C)]
#[derive(Clone, Copy)]
pub(crate) struct Text<'a> {
    at: *const u8,
    len: usize,
    of: PhantomData<&'a str>,
}

// SAFETY: a text lies in a `str` that it borrows, or in a room of the `ParseLines` that holds it, which moves with it. `get` alone
// looks at its bytes, and only reads them.
unsafe impl Send for Text<'_> {}
// SAFETY: two threads that share a text only read its bytes, and nothing writes a room while its `ParseLines` is shared.
unsafe impl Sync for Text<'_> {}

impl<'a> Text<'a> {
    pub(crate) const EMPTY: Self = Self::new("");

    pub(crate) const fn new(text: &'a str) -> Self {
        Self { at: text.as_ptr(), len: text.len(), of: PhantomData }
    }

    /// The text.
    ///
    /// # Safety
    ///
    /// It was made by `new` or by the library, and what it lies in is not written or freed between then and the last use of what
    /// is answered.
    #[inline]
    pub(crate) unsafe fn get(self) -> &'a str {
        // SAFETY: by the caller `at` and `len` are of a `str`, or of a text of the library. It gives a part of a `str` that it was
        // lent, or a copy that it made in a room; either has `len` bytes, which are UTF-8, and a pointer that is not null.
        unsafe { std::str::from_utf8_unchecked(std::slice::from_raw_parts(self.at, self.len)) }
    }
}

/// A text, and whether it is a copy without its escapes.
#[repr(C)]
#[derive(Clone, Copy)]
pub(crate) struct View<'a> {
    pub(crate) text: Text<'a>,
    pub(crate) copied: bool,
}

impl<'a> View<'a> {
    pub(crate) const EMPTY: Self = Self::new("");

    pub(crate) const fn new(text: &'a str) -> Self {
        Self { text: Text::new(text), copied: false }
    }
}

/// Room for copies.
#[repr(C)]
pub(crate) struct Room {
    pub(crate) at: *mut u8,
    pub(crate) len: usize,
}

/// A tag or a field.
#[repr(C)]
#[derive(Clone, Copy)]
pub(crate) struct Part<'a> {
    pub(crate) key: View<'a>,
    pub(crate) text: View<'a>,
    pub(crate) integer: i64,
    pub(crate) unsigned: u64,
    pub(crate) kind: u32,
    pub(crate) boolean: bool,
}

impl Part<'_> {
    pub(crate) const EMPTY: Self =
        Part { key: View::EMPTY, text: View::EMPTY, integer: 0, unsigned: 0, kind: kind::TAG, boolean: false };
}

/// A line without its parts, or a fault.
#[repr(C)]
#[derive(Clone, Copy)]
pub(crate) struct Line<'a> {
    pub(crate) series: Text<'a>,
    pub(crate) measurement: View<'a>,
    pub(crate) fault_text: Text<'a>,
    pub(crate) tags: usize,
    pub(crate) fields: usize,
    pub(crate) copied_len: usize,
    pub(crate) timestamp: i64,
    pub(crate) fault: u32,
    pub(crate) side: u32,
    pub(crate) has_tag_set: bool,
    pub(crate) has_timestamp: bool,
    pub(crate) series_is_base: bool,
}

impl Line<'_> {
    pub(crate) const EMPTY: Self = Line {
        series: Text::EMPTY,
        measurement: View::EMPTY,
        fault_text: Text::EMPTY,
        tags: 0,
        fields: 0,
        copied_len: 0,
        timestamp: 0,
        fault: 0,
        side: 0,
        has_tag_set: false,
        has_timestamp: false,
        series_is_base: false,
    };
}

/// An item of a block.
#[repr(C)]
#[derive(Clone, Copy)]
pub(crate) struct Row<'a> {
    pub(crate) line: Line<'a>,
    pub(crate) parts_at: usize,
    pub(crate) answer: u32,
}

impl Row<'_> {
    pub(crate) const EMPTY: Self = Row { line: Line::EMPTY, parts_at: 0, answer: 0 };
}

/// What is left of a text.
#[repr(C)]
#[derive(Clone, Copy)]
pub(crate) struct Lines<'a> {
    rest: Text<'a>,
    pub(crate) dialect: u32,
    ended: bool,
}

impl<'a> Lines<'a> {
    /// The cursor that `lp_lines_begin` fills for this text in the dialect of this number. A `str` is UTF-8, so the test is left
    /// out.
    pub(crate) fn of(dialect: u32, text: &'a str) -> Self {
        require_version();
        Self { rest: Text::new(text), dialect, ended: false }
    }
}

/// A search for cuts.
#[repr(C)]
#[derive(Clone, Copy, Debug)]
pub(crate) struct Cuts {
    limit: usize,
    len: usize,
    equals: usize,
    commas: usize,
    begins: u32,
    part: u32,
    dialect: u32,
    escaped: bool,
}

impl Cuts {
    /// A search by the rules of the dialect of this number, in a text whose pieces may have so many bytes.
    pub(crate) fn begin(dialect: u32, limit: usize) -> Self {
        require_version();
        let mut cuts = Cuts { limit: 0, len: 0, equals: 0, commas: 0, begins: 0, part: 0, dialect: 0, escaped: false };
        // SAFETY: the one pointer is that of a local, which has the layout of `lp_cuts` and is filled.
        let begun = unsafe { lp_cuts_begin(dialect, limit, &mut cuts) };
        assert!(begun, "a dialect has the number");
        cuts
    }

    /// The answer for the bytes that come next, and how many of them are of the piece: of what comes after these, the first one
    /// is the newline that ends it.
    pub(crate) fn next(&mut self, text: &[u8]) -> (u32, usize) {
        let mut cut = 0;
        // SAFETY: `text` has `len` bytes, and its pointer is not null, also if it is empty. What is written is `self`, which is
        // borrowed alone, and a local, so they are apart from `text` and from each other.
        let answer = unsafe { lp_cuts_next(self, text.as_ptr(), text.len(), &mut cut) };
        assert_ne!(answer, answer::OUT_OF_MEMORY, "a piece has more bytes than a usize may hold");
        (answer, cut)
    }
}

/// So many bytes from a place on.
#[repr(C)]
#[derive(Clone, Copy, Default)]
pub(crate) struct Span {
    pub(crate) at: u32,
    pub(crate) len: u32,
}

impl Span {
    /// The places of the bytes.
    #[inline(always)]
    pub(crate) fn range(self) -> Range<usize> {
        self.at as usize..self.at as usize + self.len as usize
    }
}

/// A tag or a field by offsets.
#[repr(C)]
#[derive(Clone, Copy, Default)]
pub(crate) struct OffsetPart {
    pub(crate) key: Span,
    pub(crate) text: Span,
    pub(crate) number: u64,
    pub(crate) kind: u32,
    pub(crate) key_copied: u16,
    pub(crate) text_copied: u16,
}

/// An item by offsets.
#[repr(C)]
#[derive(Clone, Copy, Default)]
pub(crate) struct OffsetRow {
    pub(crate) line: u64,
    pub(crate) timestamp: i64,
    key: u64,
    verdict: u64,
    pub(crate) piece: Span,
    pub(crate) measurement: Span,
    pub(crate) line_at: u32,
    pub(crate) stop_at: u32,
    pub(crate) parts_at: u32,
    pub(crate) tags: u32,
    pub(crate) fields: u32,
    pub(crate) room_len: u32,
    pub(crate) answer: u32,
    pub(crate) fault: u32,
    side: u32,
    pub(crate) measurement_copied: u16,
    pub(crate) has_timestamp: u16,
}

/// Where a block begins, and then where to go on and how much was filled.
#[repr(C)]
#[derive(Clone, Copy, Default)]
pub(crate) struct Block {
    pub(crate) line: u64,
    pub(crate) at: u32,
    pub(crate) rows: u32,
    parts: u32,
    room: u32,
}

impl Block {
    /// The block at the start of a text.
    pub(crate) fn begin() -> Self {
        require_version();
        Block { line: 1, ..Block::default() }
    }

    /// Fills rows, parts and room from the block's place in the text on, and gives the answer. Of a text of more than 32 bits the first bytes
    /// are read, and then what is left of these is [`answer::MORE_TEXT`].
    pub(crate) fn read(&mut self, text: &str, dialect: u32, room: &mut [u8], rows: &mut [OffsetRow], parts: &mut [OffsetPart]) -> u32 {
        let len = text.len().min(u32::MAX as usize);
        let (room_at, rows_at, parts_at) = (room.as_mut_ptr(), rows.as_mut_ptr(), parts.as_mut_ptr());
        // SAFETY: `text` has `len` bytes, and its pointer is not null, also if it is empty; so have the room, the rows and the parts their
        // lengths, which are borrowed alone, as is the block. So what is written is apart from `text` and from each other.
        unsafe {
            lp_offsets_block(text.as_ptr(), len, dialect, len == text.len(), self, room_at, room.len(), rows_at, rows.len(), parts_at, parts.len())
        }
    }
}

/// What the options of a server change. [`Default`] has those of servers whose options are as they come.
///
/// ```
/// let limits = influxdb_line_protocol::Limits { tags: 40, ..Default::default() };
/// assert_eq!((limits.line, limits.tags, limits.earliest, limits.latest), (262_144, 40, 1_000_000, i64::MAX));
/// ```
#[repr(C)]
#[derive(Clone, Copy, Debug, PartialEq, Eq)]
pub struct Limits {
    /// The most bytes of a line.
    pub line: usize,
    /// The most tags of a line.
    pub tags: usize,
    /// The earliest timestamp that is kept, in nanoseconds.
    pub earliest: i64,
    /// The latest timestamp that is kept, in nanoseconds.
    pub latest: i64,
}

impl Default for Limits {
    fn default() -> Self {
        require_version();
        let mut limits = Limits { line: 0, tags: 0, earliest: 0, latest: 0 };
        // SAFETY: the one pointer is that of a local, which has the layout of `lp_limits` and is filled.
        unsafe { lp_limits_default(&mut limits) };
        limits
    }
}

/// How much was rebuilt.
#[repr(C)]
#[derive(Default)]
pub(crate) struct Counts {
    pub(crate) batch_len: usize,
    pub(crate) faults_len: usize,
    pub(crate) carried: usize,
    pub(crate) refused: usize,
}

/// A call that puts a text out.
pub(crate) type PutOut =
    unsafe extern "C" fn(*const Line<'_>, *const Part<'_>, usize, *mut u8, usize, *mut usize) -> u32;

// A call is safe if no pointer is null, also at length 0; if each is of memory that holds what its type says; if what it writes
// is apart from all else that it is passed; and if a cursor is one of `Lines::of`, or one that a call has moved since. It keeps
// no pointer once it has answered.
extern "C" {
    fn lp_version() -> u32;
    pub(crate) fn lp_lines_block<'a>(
        lines: *mut Lines<'a>,
        room: *mut Room,
        rows: *mut Row<'a>,
        rows_len: usize,
        parts: *mut Part<'a>,
        parts_len: usize,
        filled: *mut usize,
    ) -> u32;
    fn lp_offsets_block(
        text: *const u8,
        len: usize,
        dialect: u32,
        last: bool,
        block: *mut Block,
        room: *mut u8,
        room_len: usize,
        rows: *mut OffsetRow,
        rows_len: usize,
        parts: *mut OffsetPart,
        parts_len: usize,
    ) -> u32;
    pub(crate) fn lp_lines_piece<'a>(lines: *mut Lines<'a>, piece: *mut View<'a>) -> bool;
    fn lp_cuts_begin(dialect: u32, limit: usize, cuts: *mut Cuts) -> bool;
    fn lp_cuts_next(cuts: *mut Cuts, text: *const u8, len: usize, cut: *mut usize) -> u32;
    pub(crate) fn lp_line_key(
        line: *const Line<'_>,
        parts: *const Part<'_>,
        parts_len: usize,
        out: *mut u8,
        room: usize,
        len: *mut usize,
    ) -> u32;
    fn lp_line_write(
        dialect: u32,
        line: *const Line<'_>,
        parts: *const Part<'_>,
        parts_len: usize,
        out: *mut u8,
        room: usize,
        len: *mut usize,
    ) -> u32;
    fn lp_limits_default(limits: *mut Limits);
    fn lp_offsets_verdicts(
        text: *const u8,
        len: usize,
        rows: *mut OffsetRow,
        rows_len: usize,
        limits: *const Limits,
        told: *mut usize,
    ) -> u32;
    fn lp_line_is_base_safe(line: *const Line<'_>, parts: *const Part<'_>, parts_len: usize, safe: *mut bool) -> u32;
    fn lp_line_is_admitted(
        dialect: u32,
        line: *const Line<'_>,
        parts: *const Part<'_>,
        parts_len: usize,
        admitted: *mut bool,
    ) -> u32;
    fn lp_rebuild(
        dialect: u32,
        text: *const u8,
        len: usize,
        batch: *mut u8,
        batch_room: usize,
        faults: *mut u8,
        faults_room: usize,
        counts: *mut Counts,
    ) -> u32;
}

// Panics if the library is of another major version, whose calls and structs may be others. It is asked once.
fn require_version() {
    static IS_KNOWN: AtomicBool = AtomicBool::new(false);
    if IS_KNOWN.load(Ordering::Relaxed) {
        return;
    }
    // SAFETY: it takes nothing, and each version of the library has it.
    let version = unsafe { lp_version() };
    let (major, minor, patch) = (version / 10_000, version / 100 % 100, version % 100);
    assert!(major == 3, "influxdb_line_protocol: the library is of version {major}.{minor}.{patch}: this crate needs one of version 3");
    IS_KNOWN.store(true, Ordering::Relaxed);
}

// Hands on an answer, but ends as a refused request of the standard library does if a request for memory was refused.
fn granted(answer: u32) -> u32 {
    if answer == answer::OUT_OF_MEMORY {
        alloc::handle_alloc_error(alloc::Layout::new::<Line<'_>>())
    }
    answer
}

/// Whether the base of this line, whose texts are those of `Text::new`, is safe to group by.
pub(crate) fn is_base_safe(line: &Line<'_>, parts: &[Part<'_>]) -> bool {
    require_version();
    let mut safe = false;
    // SAFETY: `line` and `parts` are borrows, of texts that are borrows too. What is written is a local, apart from these.
    granted(unsafe { lp_line_is_base_safe(line, parts.as_ptr(), parts.len(), &mut safe) });
    safe
}

/// Whether this line, whose texts are those of `Text::new`, is admitted in the dialect of this number. False: it is not, or is no line.
pub(crate) fn is_admitted(dialect: u32, line: &Line<'_>, parts: &[Part<'_>]) -> bool {
    require_version();
    let mut admitted = false;
    // SAFETY: `line` and `parts` are borrows, of texts that are borrows too. What is written is a local, apart from these.
    granted(unsafe { lp_line_is_admitted(dialect, line, parts.as_ptr(), parts.len(), &mut admitted) });
    admitted
}

/// What `lp_rebuild` answers over these buffers for this text in the dialect of this number, and how much was rebuilt.
pub(crate) fn rebuild(dialect: u32, text: &str, batch: &mut [u8], faults: &mut [u8]) -> (u32, Counts) {
    require_version();
    let mut counts = Counts::default();
    let (batch_at, faults_at) = (batch.as_mut_ptr(), faults.as_mut_ptr());
    // SAFETY: `text` has `len` bytes, and its pointer is not null, also if it is empty; so have both buffers, which are borrowed alone.
    // What is written is these and a local, so they are apart from `text` and from each other.
    let answer = unsafe {
        lp_rebuild(dialect, text.as_ptr(), text.len(), batch_at, batch.len(), faults_at, faults.len(), &mut counts)
    };
    (granted(answer), counts)
}

/// The bits of the clauses that this text breaks. `None`: it has more bytes than a row may say.
pub(crate) fn verdict(limits: &Limits, text: &str) -> Option<u64> {
    require_version();
    let piece = Span { at: 0, len: text.len().try_into().ok()? };
    let (mut row, mut told) = (OffsetRow { answer: answer::LINE, piece, ..OffsetRow::default() }, 0);
    // SAFETY: `text` has `len` bytes, and its pointer is not null, also if it is empty. `limits` is a borrow. What is written is two
    // locals, the one row among them, so they are apart from these and from each other.
    granted(unsafe { lp_offsets_verdicts(text.as_ptr(), text.len(), &mut row, 1, limits, &mut told) });
    Some(row.verdict)
}

// What a call answers over this buffer, and the length that it tells.
fn put_into(call: PutOut, line: &Line<'_>, parts: &[Part<'_>], out: &mut [u8]) -> (u32, usize) {
    require_version();
    let mut len = 0;
    // SAFETY: `call` is one that puts a text out. `line` and `parts` are borrows, of texts that are borrows too. What is written is
    // `out`, which is borrowed alone, and a local, so they are apart from these and from each other.
    let answer = unsafe { call(line, parts.as_ptr(), parts.len(), out.as_mut_ptr(), out.len(), &mut len) };
    (granted(answer), len)
}

/// Hands on what `call` puts out of a line whose texts are those of `Text::new`, and its answer.
pub(crate) fn put_out<T>(call: PutOut, line: &Line<'_>, parts: &[Part<'_>], take: impl FnOnce(u32, &[u8]) -> T) -> T {
    let mut small = [0; 256];
    let (answer, len) = put_into(call, line, parts, &mut small);
    if answer != answer::MORE_ROOM {
        return take(answer, &small[..len]);
    }
    let mut large = vec![0; len];
    let (answer, len) = put_into(call, line, parts, &mut large);
    take(answer, &large[..len])
}

/// What `lp_line_write` answers over this buffer for a line whose texts are those of `Text::new`, and the length that it tells.
pub(crate) fn write_line(dialect: u32, line: &Line<'_>, parts: &[Part<'_>], out: &mut [u8]) -> (u32, usize) {
    require_version();
    let mut len = 0;
    // SAFETY: `line` and `parts` are borrows, of texts that are borrows too. What is written is `out`, which is borrowed alone, and
    // a local, so they are apart from these and from each other.
    let answer = unsafe { lp_line_write(dialect, line, parts.as_ptr(), parts.len(), out.as_mut_ptr(), out.len(), &mut len) };
    (granted(answer), len)
}

/// The text of what was put out.
pub(crate) fn text_of(bytes: &[u8]) -> &str {
    std::str::from_utf8(bytes).expect("the library puts out UTF-8")
}
