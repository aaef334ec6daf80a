//! Logs of fragments as no writer puts them: any type after any other, most of them sound.

use crate::odd::{self, kind_after, spoilt, trailer};
use crate::random::Random;
use reference::log::{append, fragment, Appended, BLOCK, FIRST, FULL, HEADER};

pub fn pick<T: Clone>(random: &mut Random, from: &[T]) -> T {
    from[random.below(from.len())].clone()
}

/// A log of this length whose fragments have up to `most` bytes of data, the last cut off.
pub fn log(random: &mut Random, length: usize, most: usize) -> Vec<u8> {
    let mut log = Vec::new();
    add(random, &mut log, length, most);
    log
}

/// A log that has one fragment up to so many bytes before the end of its first block, and then
/// short ones up to a length.
pub fn near_the_end(random: &mut Random, before: usize, length: usize) -> Vec<u8> {
    let kind = pick(random, &[FULL, FULL, FIRST]);
    let mut log = fragment(kind, &random.bytes(BLOCK - HEADER - before));
    add(random, &mut log, length, 9);
    log
}

/// Goes on with fragments and trailers up to a length, from where the log ends.
pub fn add(random: &mut Random, log: &mut Vec<u8>, length: usize, most: usize) {
    let mut kind = odd::NONE;
    while log.len() < length {
        let left = BLOCK - log.len() % BLOCK;
        if left < HEADER {
            log.extend(trailer(random, left));
            continue;
        }
        let room = left - HEADER;
        kind = kind_after(random, kind, left);
        let bytes = match random.below(8) {
            _ if kind.empty => 0,
            0 => 0,
            1 => most.min(room),
            2 if room < 2 * most => room,
            _ => random.below(most.min(room) + 1),
        };
        let sound = fragment(kind.number, &random.bytes(bytes));
        log.extend(spoilt(random, sound, room, 20));
    }
    log.truncate(length);
}

/// A log of records as the writer puts them, the lengths given.
pub fn written(random: &mut Random, lengths: &[usize]) -> Vec<u8> {
    let mut log = vec![0; lengths.iter().sum::<usize>() * 2 + 14 * lengths.len()];
    let mut mark = 0;
    for length in lengths {
        let record = random.bytes(*length);
        mark = match append(&mut log, mark, &record) {
            Appended::Mark(mark) => mark,
            refused => panic!("{refused:?}"),
        };
    }
    log.truncate(mark);
    log
}
