//! Every condition of a refusal at its edge and on both sides of it, alone and with others (§11.11).

use crate::lent::Lent;
use crate::made::Made;
use crate::pair::Pair;
use crate::random::Random;
use crate::words::Words;
use reference::log::{BLOCK, LONGEST_LOG, LONGEST_RECORD};

pub fn all(random: &mut Random) -> Made {
    let mut made = limits(random);
    made += lengths(random);
    made
}

/// Numbers 5 and 6, and 2 with the latter.
fn limits(random: &mut Random) -> Made {
    let mut pair = Pair::new(LONGEST_RECORD + 2, random);
    for limit in around(LONGEST_RECORD).chain([0, 1, 100, usize::MAX]) {
        pair.begin(limit as u64);
        for opened in [0, 2] {
            let mut state = pair.state.get();
            (state[0], state[4]) = (limit as u64, opened);
            for length in around(limit).filter(|length| *length <= LONGEST_RECORD + 2) {
                pair.state = Words::new(state);
                pair.buffer.cut(length);
                pair.next();
            }
        }
    }
    pair.made
}

/// Numbers 1, 2 and 20: pieces that take the log to its greatest length, one byte less and more,
/// from all that may have come before them.
fn lengths(random: &mut Random) -> Made {
    let mut pair = Pair::begun(0, random);
    let mut piece = Lent::zeros(LONGEST_LOG + 2, random);
    // No more than these can be taken at once.
    piece.put(0, &[7; BLOCK]);
    let last = LONGEST_LOG - BLOCK;
    let came = [
        0,
        1,
        BLOCK,
        last,
        last + 1,
        LONGEST_LOG - 1,
        LONGEST_LOG,
        LONGEST_LOG + 1,
    ];
    for came in came.into_iter().chain([usize::MAX - 1, usize::MAX]) {
        let rest = LONGEST_LOG.saturating_sub(came);
        for length in around(rest).chain([0, 1]) {
            piece.cut(length.min(LONGEST_LOG + 2));
            for (over, opened) in [(0, 0), (1, 0), (0, 2), (1, 2)] {
                for place in [came, came.saturating_sub(1), 0] {
                    let [place, came] = [place, came].map(|number| number as u64);
                    pair.state = Words::new([0, place, came, over, opened, 0, 0, 0, 0, 0]);
                    pair.take_lent(&piece);
                    pair.end();
                    pair.next();
                }
            }
        }
    }
    // At each call this would take long.
    assert!(piece.is_same(), "piece");
    pair.made
}

/// A number and its neighbours.
fn around(number: usize) -> impl Iterator<Item = usize> {
    number.saturating_sub(1)..=number.saturating_add(1)
}
