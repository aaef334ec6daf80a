//! A lent slice in two copies, one for the calls under test and one for the reference.

// Each test program takes a part of it.
#![allow(dead_code)]

use crate::random::Random;
use std::ops::Range;

/// Each copy lies inside an array, at any place within a word, so that a byte written in front of
/// the slice or after it shows.
#[derive(Clone)]
pub struct Lent {
    tested: Vec<u8>,
    expected: Vec<u8>,
    start: usize,
    length: usize,
}

impl Lent {
    pub fn new(bytes: &[u8], random: &mut Random) -> Lent {
        let start = 8 + random.below(8);
        let array = [&random.bytes(start), bytes, &random.bytes(16)].concat();
        Lent {
            tested: array.clone(),
            expected: array,
            start,
            length: bytes.len(),
        }
    }

    /// So many zeros, of which those take up memory only that are then written.
    pub fn zeros(length: usize, random: &mut Random) -> Lent {
        let start = 8 + random.below(8);
        let mut lent = Lent {
            tested: vec![0; start + length + 16],
            expected: vec![0; start + length + 16],
            start: 0,
            length,
        };
        lent.put(0, &random.bytes(start));
        lent.put(start + length, &random.bytes(16));
        lent.start = start;
        lent
    }

    /// Puts bytes at a place, into both copies.
    pub fn put(&mut self, place: usize, bytes: &[u8]) {
        let place = self.start + place;
        for copy in [&mut self.tested, &mut self.expected] {
            copy[place..place + bytes.len()].copy_from_slice(bytes);
        }
    }

    /// Lends the first so many bytes only: those after them stay, and must not be seen.
    pub fn cut(&mut self, length: usize) {
        assert!(self.start + length + 16 <= self.tested.len());
        self.length = length;
    }

    pub fn len(&self) -> usize {
        self.length
    }

    fn range(&self) -> Range<usize> {
        self.start..self.start + self.length
    }

    pub fn tested(&self) -> &[u8] {
        &self.tested[self.range()]
    }

    pub fn tested_mut(&mut self) -> &mut [u8] {
        let range = self.range();
        &mut self.tested[range]
    }

    pub fn expected(&self) -> &[u8] {
        &self.expected[self.range()]
    }

    pub fn expected_mut(&mut self) -> &mut [u8] {
        let range = self.range();
        &mut self.expected[range]
    }

    /// Both copies, to be lent at the same time.
    pub fn both_mut(&mut self) -> (&mut [u8], &mut [u8]) {
        let range = self.range();
        (&mut self.tested[range.clone()], &mut self.expected[range])
    }

    /// Whether the copies are the same, with all that is around them.
    pub fn is_same(&self) -> bool {
        self.tested == self.expected
    }
}
