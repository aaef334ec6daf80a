//! What has been answered, once nothing more is certain, beside the definition of the earliest
//! moment: what the readings of all logs have in common that begin with what has come (§11.12).

use crate::made::Made;
use crate::pair::{Pair, SKIPPED};
use crate::random::Random;
use crate::trailers;
use reference::feed::{earliest, words_of_told, Told};
use reference::log::{fragment, BLOCK, FIRST, FULL, HEADER, LAST, MIDDLE};

pub fn all(random: &mut Random) -> Made {
    let mut made = Made::default();
    for _ in 0..150 {
        let log = log(random);
        made += at_each_moment(&log, 0, random);
    }
    // Up to the trailer, all comes at once: what is asked of a whole block takes long.
    for _ in 0..60 {
        let log = trailers::log(random);
        made += at_each_moment(&log, BLOCK - 2 * HEADER, random);
    }
    made
}

/// Some bytes at once, and the others in short pieces.
fn at_each_moment(log: &[u8], first: usize, random: &mut Random) -> Made {
    let limit = random.below(6);
    let mut pair = Pair::begun(limit, random);
    let mut answers = pair.feed(&log[..first], random);
    let mut came = first;
    while came < log.len() {
        let until = log.len().min(came + 1 + random.below(12));
        answers.extend(pair.feed(&log[came..until], random));
        came = until;
        let certain = earliest(&log[..came], limit);
        let certain = certain.into_iter().map(Told::Answer);
        let words: Vec<_> = certain.map(|told| words_of_told(told, 0)).collect();
        assert_eq!(answers, words, "{came} of {log:?} with limit {limit}");
    }
    assert!(answers.iter().all(|answer| answer[0] <= SKIPPED));
    pair.made
}

/// Small fragments of any types, some of them after an empty FIRST and some damaged, and the
/// beginning of another.
fn log(random: &mut Random) -> Vec<u8> {
    let mut log = Vec::new();
    for _ in 0..1 + random.below(6) {
        let kinds = [FULL, FIRST, MIDDLE, LAST, FIRST, LAST, 0, 9];
        if random.below(3) == 0 {
            log.extend(fragment(FIRST, b""));
        }
        let length = random.below(4);
        log.extend(fragment(kinds[random.below(8)], &random.bytes(length)));
    }
    if random.below(2) == 0 {
        let place = random.below(log.len());
        log[place] ^= 1 << random.below(8);
    }
    log.truncate(log.len() - random.below(7));
    log
}
