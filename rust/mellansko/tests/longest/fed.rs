//! A log that is fed to the last byte that a log may have.

use crate::lent::Lent;
use crate::make::accepted;
use crate::pair::{Pair, END};
use crate::random::Random;
use reference::log::{append, BLOCK, HEADER, LONGEST_LOG};

const BLOCKS: usize = LONGEST_LOG / BLOCK;
const LIMIT: usize = 3 * BLOCK;

/// Zeros, and in the last four blocks a record that ends with the log. From time to time a piece is
/// offered that would pass the end.
pub fn to_the_last_byte(random: &mut Random) {
    let mut pair = Pair::begun(LIMIT, random);
    let mut zeros = Lent::zeros(LONGEST_LOG + 1, random);
    let mut came = 0;
    while came < LONGEST_LOG - 4 * BLOCK {
        if came % (BLOCKS / 8 * BLOCK) < BLOCK {
            refused(&mut pair, &mut zeros, LONGEST_LOG + 1 - came);
        }
        // Most pieces pass the end of a block, of which they are then taken up to there.
        zeros.cut((LONGEST_LOG - 4 * BLOCK - came).min(BLOCK + came / BLOCK % 3));
        let [_, taken, ..] = pair.take_lent(&zeros);
        came += taken as usize;
        pair.draw();
    }
    let mut last = vec![0; 4 * BLOCK];
    let mark = accepted(append(&mut last, 0, &random.bytes(BLOCK)));
    // In what is left of three blocks.
    let record = random.bytes(last.len() - mark - 3 * HEADER);
    assert_eq!(accepted(append(&mut last, mark, &record)), last.len());
    let answers = pair.feed(&last, random);
    assert_eq!(
        answers.last().map(|answer| answer[2]),
        Some(LONGEST_LOG as u64)
    );
    refused(&mut pair, &mut zeros, 1);
    pair.feed(&[], random);
    pair.end();
    refused(&mut pair, &mut zeros, 1);
    assert_eq!(pair.draw().last().map(|answer| answer[0]), Some(END));
    assert!(zeros.is_same(), "piece");
}

/// With number 1, whole, and with nothing changed.
fn refused(pair: &mut Pair, zeros: &mut Lent, length: usize) {
    zeros.cut(length);
    let answer = pair.take_lent(zeros);
    assert_eq!(answer[..2], [1, 1], "a piece of {length}");
}
