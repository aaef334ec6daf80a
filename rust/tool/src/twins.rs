//! Blocks that are equal, byte for byte. The format does not forbid them, but a block that was
//! copied over another makes them, and no reader can tell what was there before.

use crate::words::{count, grouped, numbered};
use crate::wrap::tied;
use mellansko::BLOCK;
use std::collections::hash_map::{HashMap, RandomState};
use std::hash::{BuildHasher, Hasher};

#[derive(Default)]
pub struct Twins {
    /// How many blocks are equal to an earlier one.
    number: usize,
    /// The first that is, and the one that it is equal to, counted from 1.
    first: Option<(usize, usize)>,
}

/// Finds them while a journal comes. It holds one block, and a digest of each before it, which are
/// few: a journal that is too long is refused.
///
/// A digest has 128 bits, under keys that are drawn anew for each run. So nobody can make blocks
/// that differ and pass for equal, and that two happen to is out of reach. What came over a pipe
/// could not be read again to compare it.
pub struct Comparing {
    block: Vec<u8>,
    keys: [RandomState; 2],
    /// The first block with each digest, and how many blocks there were.
    firsts: HashMap<[u64; 2], usize>,
    blocks: usize,
    twins: Twins,
}

impl Comparing {
    pub fn new() -> Comparing {
        Comparing {
            block: Vec::with_capacity(BLOCK),
            keys: [RandomState::new(), RandomState::new()],
            firsts: HashMap::new(),
            blocks: 0,
            twins: Twins::default(),
        }
    }

    /// The journal's next bytes, none of them from beyond the block that has begun.
    pub fn add(&mut self, piece: &[u8]) {
        self.block.extend_from_slice(piece);
        assert!(self.block.len() <= BLOCK, "a piece of one block");
        if self.block.len() == BLOCK {
            self.compare();
            self.block.clear();
        }
    }

    fn compare(&mut self) {
        self.blocks += 1;
        // One byte over and over is no data, but a block that was never written, or was erased.
        if self.block.iter().all(|byte| *byte == self.block[0]) {
            return;
        }
        let digest = self.keys.each_ref().map(|key| {
            let mut hasher = key.build_hasher();
            hasher.write(&self.block);
            hasher.finish()
        });
        let earlier = *self.firsts.entry(digest).or_insert(self.blocks);
        if earlier != self.blocks {
            self.twins.number += 1;
            self.twins.first.get_or_insert((self.blocks, earlier));
        }
    }

    /// What was found. A block that is not all there is not compared.
    pub fn twins(self) -> Twins {
        self.twins
    }
}

impl Twins {
    pub fn warning(&self) -> Option<String> {
        let (block, earlier) = self.first?;
        Some(match self.number {
            1 => format!(
                "WARNING: {} are equal, byte for byte. One may have been copied over the other: {MISSING} Or it was put \
                 in twice: {LONGER} {SOUND}",
                tied(&format!("blocks {} and {}", grouped(earlier), grouped(block)))
            ),
            number => format!(
                "WARNING: {} are equal to an earlier one, byte for byte; the first is {}, equal to {}. They may have been \
                 copied over others: {MISSING} Or they were put in twice: {LONGER} {SOUND}",
                count(number, "block", "blocks"),
                numbered("block", block),
                numbered("block", earlier)
            ),
        })
    }
}

/// What a copy over another block does, what one between others does, and what else it may be.
const MISSING: &str = "then records are missing which nobody can name.";
const LONGER: &str = "then records are repeated, or longer than they were.";
const SOUND: &str = "(A long record that repeats itself makes equal blocks too.)";
