//! How many records of several fragments were met (docs/FORMAT.md, §16), and in which of the layouts
//! that differ.

use reference::log::{BLOCK, HEADER};
use std::ops::AddAssign;

#[derive(Clone, Copy, Debug, Default)]
pub struct Several {
    pub all: usize,
    /// In more fragments than there are blocks in their span: not as an append stores them.
    pub short: usize,
    /// In more fragments than they have bytes: some of them are empty.
    pub empty: usize,
    /// With a trailer between two fragments.
    pub trailers: usize,
    /// Right after a record that breaks off.
    pub after_broken: usize,
}

impl Several {
    /// A record of so many bytes and fragments.
    pub fn of(start: usize, end: usize, length: usize, fragments: usize) -> Several {
        let blocks = (end - 1) / BLOCK - start / BLOCK + 1;
        let zeros = end - start - length - HEADER * fragments;
        let [short, empty, trailers] = [fragments > blocks, fragments > length, zeros > 0];
        match fragments {
            1 => Several::default(),
            _ => Several {
                all: 1,
                short: short.into(),
                empty: empty.into(),
                trailers: trailers.into(),
                after_broken: 0,
            },
        }
    }

    pub fn are_enough(&self, least: Several) -> bool {
        self.all >= least.all
            && self.short >= least.short
            && self.empty >= least.empty
            && self.trailers >= least.trailers
            && self.after_broken >= least.after_broken
    }
}

impl AddAssign for Several {
    fn add_assign(&mut self, other: Several) {
        self.all += other.all;
        self.short += other.short;
        self.empty += other.empty;
        self.trailers += other.trailers;
        self.after_broken += other.after_broken;
    }
}
