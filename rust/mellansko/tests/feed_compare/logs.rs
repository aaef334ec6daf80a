//! Logs of records, whole, cut and damaged, in pieces of all kinds.

use crate::forge::{end_in_a_trailer, start_empty};
use crate::made::Made;
use crate::make::{accepted, any_length, headers, pick, written_log, LONG};
use crate::pair::{Pair, END};
use crate::random::Random;
use reference::log::{append, BLOCK, LONGEST_RECORD};

pub fn all(random: &mut Random) -> Made {
    let mut made = Made::default();
    for _ in 0..300 {
        let records = 1 + random.below(4);
        let mut log = written_log(random, records);
        for _ in 0..random.below(3) {
            damage(&mut log, random);
        }
        let limit = match random.below(4) {
            0 => LONG,
            1 => random.below(LONG + 1),
            _ => any_length(random, 15),
        };
        made += fed(&log, limit, random);
    }
    made += longest(random);
    made += in_drops(random);
    made
}

/// The longest record there is between two short ones: handed out, and over the limit by a byte.
fn longest(random: &mut Random) -> Made {
    let mut log = vec![0; LONGEST_RECORD + BLOCK];
    let mut mark = 0;
    for length in [5, LONGEST_RECORD, 6] {
        let record = random.bytes(length);
        mark = accepted(append(&mut log, mark, &record));
    }
    log.truncate(mark);
    let mut made = Made::default();
    for limit in [LONGEST_RECORD, LONGEST_RECORD - 1] {
        let mut pair = Pair::begun(limit, random);
        for piece in log.chunks(3 * BLOCK + 1) {
            pair.feed(piece, random);
        }
        to_the_end(&mut pair, random);
        made += pair.made;
    }
    made
}

/// A few bytes changed or a stretch of zeros, at a header or anywhere; a cut; an empty start; or a
/// trailer, which may be dirty.
fn damage(log: &mut Vec<u8>, random: &mut Random) {
    let at = match &headers(log)[..] {
        headers @ [_, ..] if random.below(2) == 0 => pick(random, headers) + random.below(8),
        _ => random.below(log.len()),
    };
    match random.below(8) {
        0 => log.truncate(at.max(1)),
        1 => {
            let end = log.len().min(at + any_length(random, 16));
            log[at.min(end)..end].fill(0);
        }
        2 | 3 => start_empty(random, log),
        4 | 5 => end_in_a_trailer(random, log),
        _ => {
            let at = at.min(log.len() - 1);
            log[at] ^= 1 << random.below(8);
        }
    }
}

/// Pieces of any lengths, after some of which answers are drawn, all or a few.
pub fn fed(log: &[u8], limit: usize, random: &mut Random) -> Made {
    let mut pair = Pair::begun(limit, random);
    let mut rest = log;
    let bits = 6 + random.below(12);
    while !rest.is_empty() {
        let length = any_length(random, bits).min(rest.len());
        let taken = pair.take(&rest[..length], random)[1] as usize;
        rest = &rest[taken..];
        match random.below(4) {
            // There is no room once the block has come.
            0 if taken == length => {}
            1 => _ = pair.next(),
            _ => _ = pair.draw(),
        }
    }
    to_the_end(&mut pair, random);
    pair.made
}

/// The end, and what is asked and offered after it.
pub fn to_the_end(pair: &mut Pair, random: &mut Random) {
    pair.end();
    let last = pair.draw().pop().expect("an end");
    assert_eq!(last[0], END);
    assert_eq!(pair.next(), last, "the same end again");
    pair.take(&[0; 9][..random.below(9)], random);
    pair.end();
    assert_eq!(pair.next(), last, "the same end again");
}

/// Byte by byte, with empty pieces in between: the beginnings of logs, and what is near the end of
/// a block.
fn in_drops(random: &mut Random) -> Made {
    let mut made = Made::default();
    for _ in 0..60 {
        let mut log = written_log(random, 5);
        damage(&mut log, random);
        let limit = any_length(random, 12);
        let mut pair = Pair::begun(limit, random);
        let whole = [0, log.len() / BLOCK * BLOCK][random.below(2)];
        pair.feed(&log[..whole.saturating_sub(300)], random);
        for byte in log[whole.saturating_sub(300)..].iter().take(600) {
            if random.below(10) == 0 {
                pair.take(&[], random);
            }
            pair.feed(&[*byte], random);
        }
        to_the_end(&mut pair, random);
        made += pair.made;
    }
    made
}
