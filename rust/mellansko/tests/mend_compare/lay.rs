//! Records laid out as no writer does it.

use crate::make::headers;
use reference::log::{fragment, BLOCK, FIRST, FULL, HEADER, LAST, MIDDLE};
use std::ops::Range;

/// Adds a record to a log, in fragments whose lengths are chosen by the room that each has.
pub fn lay(log: &mut Vec<u8>, record: &[u8], mut length: impl FnMut(usize) -> usize) {
    let mut rest = record;
    let mut first = true;
    loop {
        let left = BLOCK - log.len() % BLOCK;
        if left < HEADER {
            log.resize(log.len() + left, 0);
        }
        let room = BLOCK - log.len() % BLOCK - HEADER;
        let (data, after) = rest.split_at(length(room).min(room).min(rest.len()));
        let kind = match (first, after.is_empty()) {
            (true, true) => FULL,
            (true, false) => FIRST,
            (false, false) => MIDDLE,
            (false, true) => LAST,
        };
        log.extend(fragment(kind, data));
        if after.is_empty() {
            return;
        }
        rest = after;
        first = false;
    }
}

/// The trailers of such a log, but for one that it ends in.
pub fn trailers(log: &[u8]) -> Vec<Range<usize>> {
    let end = |place: &usize| {
        let length = u16::from_le_bytes([log[place + 4], log[place + 5]]);
        place + HEADER + usize::from(length)
    };
    let ends: Vec<usize> = headers(log).iter().map(end).collect();
    let trailers = ends.into_iter().map(|end| end..end.next_multiple_of(BLOCK));
    let fits = |range: &Range<usize>| range.len() < HEADER && range.end < log.len();
    trailers
        .filter(|range| !range.is_empty() && fits(range))
        .collect()
}
