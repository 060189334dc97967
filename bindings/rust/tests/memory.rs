//! How much memory a reader of lines holds, whatever it reads. A program of its own, since it counts all requests for memory.
use influxdb_line_protocol::{Dialect, LineError, LineReader};
use std::alloc::{GlobalAlloc, Layout, System};
use std::io::{BufReader, Read};
use std::sync::atomic::{AtomicUsize, Ordering::SeqCst};

static HELD: AtomicUsize = AtomicUsize::new(0);
static MOST: AtomicUsize = AtomicUsize::new(0);

struct Counted;

// SAFETY: each call hands its arguments to the same call of `System`, and answers what that does; counting asks for no memory.
unsafe impl GlobalAlloc for Counted {
    unsafe fn alloc(&self, layout: Layout) -> *mut u8 {
        MOST.fetch_max(HELD.fetch_add(layout.size(), SeqCst) + layout.size(), SeqCst);
        // SAFETY: by the caller, the layout has a size that is not 0.
        unsafe { System.alloc(layout) }
    }

    unsafe fn dealloc(&self, at: *mut u8, layout: Layout) {
        HELD.fetch_sub(layout.size(), SeqCst);
        // SAFETY: by the caller, `at` is of `alloc` with this layout, so of `System`, and is given back once.
        unsafe { System.dealloc(at, layout) }
    }
}

#[global_allocator]
static COUNTED: Counted = Counted;

const MANY: u64 = 64 << 20;

// How much more memory is held at most while a call runs than before it.
fn most_of(call: impl FnOnce()) -> usize {
    let before = HELD.load(SeqCst);
    MOST.store(before, SeqCst);
    call();
    MOST.load(SeqCst) - before
}

// One test, so that no other one asks for memory beside it.
#[test]
fn a_reader_of_lines_holds_one_line() {
    // The bytes of a line that is too long are let go as they come.
    let long = most_of(|| {
        let text = BufReader::new(b"m f=\"".chain(std::io::repeat(b'\n').take(MANY)).chain(&b"\"\nn f=1"[..]));
        let mut lines = LineReader::new_in(text, Dialect::Crate, 1000);
        assert!(matches!(lines.next_line(), Some(Err(LineError::TooLong { newlines, .. })) if newlines as u64 == MANY));
        assert_eq!(lines.next_line().unwrap().unwrap().text, "n f=1");
        assert!(lines.next_line().is_none());
    });
    assert!(long < 1 << 17, "{long} bytes for a line that is too long");
    // A line is let go before the next one is read.
    let many = most_of(|| {
        let text = BufReader::new(std::io::repeat(b'\n').take(MANY));
        let mut lines = LineReader::new(text);
        let mut count = 0;
        while let Some(line) = lines.next_line() {
            assert_eq!(line.unwrap().text, "");
            count += 1;
        }
        assert_eq!(count, MANY + 1);
    });
    assert!(many < 1 << 17, "{many} bytes for lines that are empty");
}
