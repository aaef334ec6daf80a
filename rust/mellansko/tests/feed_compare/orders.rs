//! Calls in any order, refused ones among them, with block and buffer altered in between.

use crate::made::Made;
use crate::make::{any_length, written_log};
use crate::pair::Pair;
use crate::random::Random;
use crate::{mixed, trailers};
use reference::log::{LONGEST_LOG, LONGEST_RECORD};

pub fn all(random: &mut Random) -> Made {
    let mut made = Made::default();
    for round in 0..600 {
        let log = match round % 3 {
            0 => written_log(random, 2),
            1 => mixed::log(random, 2_000),
            _ => trailers::log(random),
        };
        let limit = any_length(random, 16);
        let mut pair = Pair::begun(limit, random);
        let alters = random.below(2) == 0;
        let mut came = 0;
        for _ in 0..120 {
            call(&mut pair, &log, &mut came, random);
            if alters && random.below(8) == 0 {
                pair.alter(random);
            }
        }
        made += pair.made;
    }
    made
}

/// A call. Pieces go on where the last one that was taken ended, or anywhere.
fn call(pair: &mut Pair, log: &[u8], came: &mut usize, random: &mut Random) {
    match random.below(32) {
        0..=11 => {
            let from = (*came).min(log.len());
            let length = any_length(random, 16).min(log.len() - from);
            let [kind, taken, ..] = pair.take(&log[from..from + length], random);
            *came += if kind == 0 { taken as usize } else { 0 };
        }
        12 => {
            let length = any_length(random, 10);
            let piece = random.bytes(length);
            pair.take(&piece, random);
        }
        13 => pair.end(),
        14 => begin(pair, came, random),
        15 => {
            // With a buffer that may be too short, and then as it was.
            let length = pair.buffer.len();
            pair.buffer.cut(random.below(length + 1));
            pair.next();
            pair.buffer.cut(length);
        }
        16..=19 => _ = pair.draw(),
        _ => _ = pair.next(),
    }
}

/// Another feed in the same block and buffer, if it is not refused.
fn begin(pair: &mut Pair, came: &mut usize, random: &mut Random) {
    let most = pair.buffer.len();
    let too_high = [LONGEST_RECORD + 1, LONGEST_LOG, usize::MAX];
    let limit = match random.below(4) {
        0 => too_high[random.below(3)],
        1 => most,
        _ => random.below(most + 1),
    };
    if pair.begin(limit as u64)[0] == 0 {
        *came = 0;
    }
}
