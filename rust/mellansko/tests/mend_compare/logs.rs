//! Logs of all kinds: journals whole, cut and damaged, random bytes, and fragments as no writer
//! puts them.

use crate::both::Both;
use crate::hurt::hurt;
use crate::make::{any_length, headers, long_or_longest, pick, written_log};
use crate::{mixed, starts, trailers};
use reference::log::{BLOCK, LONGEST_RECORD};

/// At a limit that no record is above; at one that is about as high as a fragment's data, so that
/// some records are over it and others at it; and now and then at the lowest and at a high one.
fn at_limits(both: &mut Both, log: &[u8]) {
    both.examine(log, log.len().min(LONGEST_RECORD));
    let headers = headers(log);
    if !headers.is_empty() {
        let header = pick(&mut both.random, &headers);
        let length = u16::from_le_bytes([log[header + 4], log[header + 5]]);
        let less = both.random.below(2);
        both.examine(log, usize::from(length).saturating_sub(less));
    }
    match both.random.below(16) {
        0 => both.examine(log, 0),
        1 => {
            let high = long_or_longest(&mut both.random);
            both.examine(log, high);
        }
        _ => {}
    }
}

/// Whole, and cut at a header, next to it, and anywhere.
pub fn written(both: &mut Both) {
    for _ in 0..25 {
        let records = both.random.below(6);
        let log = written_log(&mut both.random, records);
        at_limits(both, &log);
        let header = headers(&log);
        let near = match &header[..] {
            [] => 0,
            headers => pick(&mut both.random, headers) + both.random.below(9),
        };
        let any = both.random.below(log.len() + 1);
        for cut in [near.min(log.len()), near.saturating_sub(1), any] {
            at_limits(both, &log[..cut.min(log.len())]);
        }
    }
}

/// Bytes changed, blocks replaced, stretches of zeros, fragments forged.
pub fn damaged(both: &mut Both) {
    for _ in 0..200 {
        let records = 1 + both.random.below(4);
        let mut log = written_log(&mut both.random, records);
        let other = written_log(&mut both.random, 2);
        for _ in 0..1 + both.random.below(3) {
            hurt(&mut both.random, &mut log, &other);
        }
        at_limits(both, &log);
    }
}

pub fn random(both: &mut Both) {
    for _ in 0..1_000 {
        let length = any_length(&mut both.random, 13);
        let log = both.random.bytes(length);
        both.examine(&log, length.min(300));
    }
}

pub fn odd(both: &mut Both) {
    for round in 0..1_500 {
        let blocks = match round % 10 {
            0 => both.random.below(4),
            _ => 0,
        };
        let length = both.random.below(400) + blocks * BLOCK;
        let log = mixed::log(&mut both.random, length);
        at_limits(both, &log);
    }
}

/// One empty start in each, near a block's end or elsewhere.
pub fn starts(both: &mut Both) {
    for _ in 0..300 {
        let log = starts::log(&mut both.random);
        both.examine(&log, BLOCK);
    }
}

/// One trailer in each, with a record open there or not.
pub fn trailers(both: &mut Both) {
    for _ in 0..300 {
        let log = trailers::log(&mut both.random);
        both.examine(&log, BLOCK);
    }
}
