//! Random records and logs.

use crate::random::Random;
use reference::log::{append, Appended, BLOCK, HEADER, LONGEST_RECORD};

/// What counts as long here: a record of nine fragments. Most of what is random is no longer, since
/// with the longest records there are it would take many times as long, and show nothing else.
pub const LONG: usize = 8 * BLOCK;

pub fn pick<T: Clone>(random: &mut Random, from: &[T]) -> T {
    from[random.below(from.len())].clone()
}

/// A length of any scale: below 1, below 2, below 4, .. below 2^bits.
pub fn any_length(random: &mut Random, bits: usize) -> usize {
    let scale = random.below(bits + 1);
    random.below(1 << scale)
}

/// The length of a record to be appended at a mark: none, of any scale, such that it ends near the
/// end of a block, or long.
pub fn record_length(random: &mut Random, mark: usize, bits: usize) -> usize {
    let room = (BLOCK - mark % BLOCK).saturating_sub(HEADER);
    let blocks = random.below(3) * (BLOCK - HEADER);
    match random.below(16) {
        0 => 0,
        1..=9 => any_length(random, bits),
        10..=12 => (room + 10).saturating_sub(random.below(30)),
        13..=14 => (blocks + room + 10).saturating_sub(random.below(30)),
        _ => long_or_longest(random) + 4 - random.below(8),
    }
}

/// Long; and now and then the longest there is.
pub fn long_or_longest(random: &mut Random) -> usize {
    match random.below(128) {
        0 => LONGEST_RECORD,
        _ => LONG,
    }
}

/// A record's bytes: random ones, zeros, or a log of its own.
pub fn record(random: &mut Random, length: usize) -> Vec<u8> {
    match random.below(8) {
        0 => vec![0; length],
        1 => small_log(random, length),
        _ => random.bytes(length),
    }
}

/// Small records one after the other up to this length, the last cut off by it.
fn small_log(random: &mut Random, length: usize) -> Vec<u8> {
    let mut log = vec![0; length + 200];
    let mut mark = 0;
    while mark < length {
        let bytes = random.below(100);
        let record = random.bytes(bytes);
        mark = accepted(append(&mut log, mark, &record));
    }
    log.truncate(length);
    log
}

/// A log as the reference writes it: up to so many records, of mixed lengths.
pub fn written_log(random: &mut Random, records: usize) -> Vec<u8> {
    let mut log = Vec::new();
    for _ in 0..records {
        let mark = log.len();
        let length = record_length(random, mark, 14).min(LONGEST_RECORD);
        let record = record(random, length);
        // Room for a trailer and for every header.
        log.resize(mark + length + HEADER * (length / BLOCK + 4), 0);
        let end = accepted(append(&mut log, mark, &record));
        log.truncate(end);
    }
    log
}

/// The new mark of an append that there was room for.
pub fn accepted(answer: Appended) -> usize {
    match answer {
        Appended::Mark(mark) => mark,
        Appended::Refused { .. } => panic!("{answer:?} by the reference, with room enough"),
    }
}

/// The places of the headers in a log as it was written.
pub fn headers(log: &[u8]) -> Vec<usize> {
    let mut places = Vec::new();
    let mut place = 0;
    while place + HEADER <= log.len() {
        let left = BLOCK - place % BLOCK;
        if left < HEADER {
            place += left;
        } else {
            places.push(place);
            place += HEADER + usize::from(u16::from_le_bytes([log[place + 4], log[place + 5]]));
        }
    }
    places
}
