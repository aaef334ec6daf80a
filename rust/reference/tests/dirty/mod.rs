//! Logs whose blocks end in trailers, and how many dirty ones are met (docs/FORMAT.md, §14).

use crate::odd::{self, kind_after, trailer, Kind};
use crate::random::Random;
use reference::log::{fragment, Next, BLOCK, HEADER};

/// How many dirty trailers were answered for: with nothing open, and with a record open, which they
/// interrupt.
#[derive(Debug, Default)]
pub struct Met {
    nothing_open: usize,
    record_open: usize,
}

impl Met {
    pub fn count(&mut self, answers: &[Next]) {
        let mut interrupted_at = None;
        for answer in answers {
            match *answer {
                Next::Skip { end, reason: 4, .. } => interrupted_at = Some(end),
                Next::Skip {
                    start, reason: 9, ..
                } if interrupted_at == Some(start) => self.record_open += 1,
                Next::Skip { reason: 9, .. } => self.nothing_open += 1,
                _ => {}
            }
        }
    }

    /// Inputs without them would show nothing: so many of each at least.
    pub fn at_least(&self, nothing_open: usize, record_open: usize) {
        println!("{self:?}");
        assert!(self.nothing_open >= nothing_open, "{self:?}");
        assert!(self.record_open >= record_open, "{self:?}");
    }
}

/// Blocks that end in trailers, or without one; mostly cut, in the last trailer or anywhere.
pub fn log(random: &mut Random, blocks: usize) -> Vec<u8> {
    let mut log = Vec::new();
    let mut kind = odd::NONE;
    for _ in 0..blocks {
        kind = add_block(random, &mut log, kind);
    }
    let less = match random.below(4) {
        0 => 0,
        1 | 2 => random.below(HEADER),
        _ => random.below(log.len() + 1),
    };
    log.truncate(log.len() - less);
    log
}

/// A long fragment, a few short ones, and a trailer. Gives the last fragment's type.
fn add_block(random: &mut Random, log: &mut Vec<u8>, mut kind: Kind) -> Kind {
    kind = kind_after(random, kind, BLOCK);
    let long = kind.number;
    let mut short = Vec::new();
    for _ in 0..random.below(4) {
        // As where few bytes of a block are left.
        kind = kind_after(random, kind, HEADER);
        let data = if kind.empty { 0 } else { random.below(5) };
        short.extend(fragment(kind.number, &random.bytes(data)));
    }
    let bytes = random.below(HEADER);
    if bytes > 0 {
        short.extend(trailer(random, bytes));
    }
    log.extend(fragment(long, &random.bytes(BLOCK - HEADER - short.len())));
    log.extend(short);
    kind
}
