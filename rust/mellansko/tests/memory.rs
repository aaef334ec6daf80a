//! How much memory is taken, as the crate's page says, by an allocator that counts.

// Nobody can write an allocator without it.
#![allow(unsafe_code)]

use mellansko::{Feed, Incoming, Reading, BLOCK, LONGEST_RECORD};
use std::alloc::{GlobalAlloc, Layout, System};
use std::cell::Cell;
use std::io;

struct Counting;

thread_local! {
    /// The bytes that this thread was given so far: each test has its own.
    static GIVEN: Cell<usize> = const { Cell::new(0) };
}

fn count(layout: Layout) {
    GIVEN.with(|given| given.set(given.get() + layout.size()));
}

// SAFETY: each call is handed on to the system's allocator as it is.
unsafe impl GlobalAlloc for Counting {
    unsafe fn alloc(&self, layout: Layout) -> *mut u8 {
        count(layout);
        // SAFETY: the caller keeps to what this call requires.
        unsafe { System.alloc(layout) }
    }

    unsafe fn alloc_zeroed(&self, layout: Layout) -> *mut u8 {
        count(layout);
        // SAFETY: as above.
        unsafe { System.alloc_zeroed(layout) }
    }

    unsafe fn dealloc(&self, place: *mut u8, layout: Layout) {
        // SAFETY: as above.
        unsafe { System.dealloc(place, layout) }
    }
}

#[global_allocator]
static COUNTING: Counting = Counting;

/// How many bytes are allocated to make something.
fn taken<T>(make: impl FnOnce() -> T) -> usize {
    let before = GIVEN.with(Cell::get);
    drop(make());
    GIVEN.with(Cell::get) - before
}

/// By the limit, or by the log if that is shorter; nothing if it is refused.
#[test]
fn by_a_reading() {
    let log = vec![0; 2 * LONGEST_RECORD];
    let of = |length: usize| taken(|| Reading::of(&log[..length]));
    assert_eq!([0, 38, 100_000].map(of), [0, 38, 100_000]);
    assert_eq!(of(log.len()), LONGEST_RECORD);
    let with_limit = |limit| taken(|| Reading::with_limit(&log[..1_000], limit));
    assert_eq!([0, 999, 1_001].map(with_limit), [0, 999, 1_000]);
    assert_eq!(with_limit(LONGEST_RECORD + 1), 0);
}

/// By the limit, and a block; two where a source is read.
#[test]
fn by_a_feed() {
    assert_eq!(taken(Feed::new), BLOCK + LONGEST_RECORD);
    assert_eq!(taken(|| Feed::with_limit(1_000)), BLOCK + 1_000);
    assert_eq!(taken(|| Feed::with_limit(LONGEST_RECORD + 1)), 0);
    let incoming = taken(|| Incoming::with_limit(io::empty(), 1_000));
    assert_eq!(incoming, 2 * BLOCK + 1_000);
}

/// A record that lies in several fragments is copied, and one of a single fragment is not.
#[test]
fn by_records() {
    let mut log = vec![0; 3 * BLOCK];
    for (length, copied) in [(BLOCK, BLOCK), (BLOCK - 7, 0)] {
        let record = vec![1; length];
        let mark = mellansko::append(&mut log, 0, &record).expect("room");
        let all = taken(|| mellansko::records(&log[..mark]));
        // Besides the buffer, a list of a few places.
        let list = all - mark - copied;
        assert!(list < 1_000, "{length} bytes take {all}");
    }
}
