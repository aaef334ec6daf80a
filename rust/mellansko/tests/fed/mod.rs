//! Logs to feed, and what is to be told of them.

// Each test program takes a part of it.
#![allow(dead_code)]

use crate::expected::next_of;
use crate::random::Random;
use mellansko::{Answer, Feed, Next};
use reference::log::LONGEST_RECORD;
use reference::log::{self, fragment, Stored, BLOCK, FIRST, FULL, HEADER, LAST, MIDDLE};

/// An answer in the reference's types, with a record's bytes.
pub type Told = (log::Next, Vec<u8>);

pub fn told(answer: Answer) -> Told {
    match answer {
        Answer::Record { record, bytes } => (next_of(Next::Record(record)), bytes.into_owned()),
        Answer::Skip(skip) => (next_of(Next::Skip(skip)), Vec::new()),
        Answer::End(tail) => (next_of(Next::End(tail)), Vec::new()),
    }
}

/// The answers of a whole log by the reference, but that every record is gathered (docs/FORMAT.md,
/// §11.10).
pub fn of_the_whole(log: &[u8], limit: usize) -> Vec<Told> {
    let mut buffer = vec![0; limit];
    let (mut all, mut place) = (Vec::new(), 0);
    loop {
        let mut next = log::next(log, place, limit, &mut buffer);
        let bytes = log::record_bytes(log, &buffer, &next).to_vec();
        place = next.place_after(log);
        if let log::Next::Record { stored, .. } = &mut next {
            *stored = Stored::Gathered;
        }
        all.push((next, bytes));
        if let log::Next::End(_) = next {
            return all;
        }
    }
}

/// Of each answer before the end is announced, how many bytes had come when it was given to a feed
/// that got them one by one.
pub fn moments(log: &[u8], limit: usize) -> Vec<usize> {
    let mut feed = Feed::with_limit(limit).expect("a limit that is not too high");
    let mut moments = Vec::new();
    for (i, byte) in log.iter().enumerate() {
        assert_eq!(feed.take(&[*byte]), Ok(1));
        while feed.advance().is_some() {
            moments.push(i + 1);
        }
    }
    moments
}

/// Logs of all kinds: as written, cut, with bytes changed, and of fragments that do not fit. Each
/// with a limit.
pub fn logs(random: &mut Random) -> Vec<(Vec<u8>, usize)> {
    let shapes: [&[usize]; 7] = [
        &[],
        &[0, 0, 0, 13],
        &[5, 40_000, 0, 9],
        &[70_000, 20, 32_761],
        &[BLOCK - 14, 0, 3],
        &[BLOCK - 14, 1, 3],
        &[BLOCK - 13, 0, 3, BLOCK - 25, 8],
    ];
    let mut logs = Vec::new();
    for shape in shapes {
        let log = written(random, shape);
        for _ in 0..3 {
            let mut changed = log.clone();
            changed.truncate(random.below(log.len() + 1));
            logs.push((changed.clone(), LONGEST_RECORD));
            for _ in 0..changed.len().min(2) {
                let place = random.below(changed.len());
                changed[place] ^= 1 << random.below(8);
            }
            logs.push((changed, [0, 4, 5, 39_999][random.below(4)]));
        }
        logs.push((log, LONGEST_RECORD));
    }
    logs.extend((0..40).map(|_| (pieced(random), random.below(8))));
    logs
}

/// A log of records of these lengths.
pub fn written(random: &mut Random, lengths: &[usize]) -> Vec<u8> {
    // Room for a trailer before each record, and for every header.
    let room = lengths.iter().map(|n| n + HEADER * (n / BLOCK + 4));
    let mut log = vec![0; room.sum()];
    let mut mark = 0;
    for &length in lengths {
        let record = random.bytes(length);
        mark = mellansko::append(&mut log, mark, &record).expect("room enough");
    }
    log.truncate(mark);
    log
}

/// Small fragments of any types in any order, some of them damaged.
fn pieced(random: &mut Random) -> Vec<u8> {
    let mut log = Vec::new();
    for _ in 0..random.below(12) {
        let kinds = [FULL, FIRST, MIDDLE, LAST, FIRST, MIDDLE, 0, 5];
        let length = random.below(4);
        log.extend(fragment(kinds[random.below(8)], &random.bytes(length)));
    }
    if random.below(3) == 0 && !log.is_empty() {
        let place = random.below(log.len());
        log[place] ^= 1;
    }
    log
}

/// How long the next piece is: of one byte, of none, or longer than a block.
pub fn piece_length(random: &mut Random) -> usize {
    match random.below(6) {
        0 => random.below(2),
        1 => random.below(20),
        2 | 3 => random.below(5_000),
        4 => BLOCK + 4 - random.below(8),
        _ => random.below(4 * BLOCK),
    }
}
