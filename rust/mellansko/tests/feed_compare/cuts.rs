//! All ways of cutting short logs into pieces: logs from place 0 on, and ends of blocks.

use crate::logs::to_the_end;
use crate::made::Made;
use crate::pair::Pair;
use crate::random::Random;
use crate::words::Words;
use reference::log::{fragment, BLOCK, FIRST, FULL, HEADER, LAST, MIDDLE};

pub fn all(random: &mut Random) -> Made {
    let mut made = Made::default();
    for log in short() {
        for limit in [0, 1, 3] {
            made += every_cut(&log, 0, false, limit, random);
        }
        // After an empty FIRST, with data that are over the limit or not.
        for limit in [0, 3] {
            made += every_cut(&log, HEADER, true, limit, random);
        }
    }
    for left in [1, 6, 7, 8, 10] {
        for log in short() {
            for open in [false, true] {
                made += every_cut(&log, BLOCK - left, open, 3, random);
            }
        }
    }
    made
}

/// Up to eleven bytes: fragments sound and bad, more than one of them, and no fragments.
fn short() -> Vec<Vec<u8>> {
    let mut logs = vec![vec![0; 11], vec![0xFF; 9], vec![0, 0, 0, 0, 2, 0x80, 1, 9]];
    for kind in [FULL, FIRST, MIDDLE, LAST, 0, 7] {
        let mut log = fragment(kind, &[1, 2, 3][..usize::from(kind % 3)]);
        log.extend([9; 2]);
        log[0] ^= u8::from(kind == 7);
        logs.push(log);
    }
    logs
}

/// A log whose first byte is at this place, with or without an empty record open there.
fn every_cut(log: &[u8], place: usize, open: bool, limit: u64, random: &mut Random) -> Made {
    let mut pair = Pair::begun(limit as usize, random);
    // The header of the one fragment that it has is where it started.
    let start = if open { place - HEADER } else { 0 };
    let [place, start] = [place, start].map(|number| number as u64);
    let open = u64::from(open);
    let begun = [limit, place, place, 0, open, start, 0, 0, open, start];
    for cuts in 0..1u32 << (log.len() - 1) {
        pair.state = Words::new(begun);
        let mut from = 0;
        for to in 1..=log.len() {
            if to == log.len() || cuts >> (to - 1) & 1 == 1 {
                pair.feed(&log[from..to], random);
                from = to;
            }
        }
        to_the_end(&mut pair, random);
    }
    pair.made
}
