//! Answers, written shortly.

use reference::log::{Next, Stored};

/// What a record was stored as comes last: its fragments, and the place of the last one's header
/// (docs/FORMAT.md, §16.1).
pub fn record(
    start: usize,
    end: usize,
    length: usize,
    stored: Stored,
    (fragments, last_header): (usize, usize),
) -> Next {
    Next::Record {
        start,
        end,
        length,
        stored,
        fragments,
        last_header,
    }
}

pub fn skip(start: usize, end: usize, reason: u8) -> Next {
    Next::Skip { start, end, reason }
}
