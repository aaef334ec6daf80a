//! The gaps of a journal: the first ones as they are, and the others counted.

use crate::gap::{Doubt, Gap, Place};

/// How much is kept.
#[derive(Clone, Copy)]
pub struct Most {
    /// So many gaps, and so many ranges of each.
    pub each: usize,
    /// So many ranges in all. A gap that is kept has at least one, so this bounds all that is.
    pub ranges: usize,
}

impl Most {
    /// Where gaps are only counted.
    pub const NONE: Most = Most { each: 0, ranges: 0 };
}

/// What this holds is bounded by the most that is kept, however long the journal is.
pub struct Gaps {
    most: Most,
    /// The first gaps, in order.
    pub kept: Vec<Gap>,
    /// How many of their ranges are kept.
    ranges: usize,
    /// How many come after these, and how many bytes are in doubt there.
    pub more: usize,
    pub bytes_in_more: usize,
    /// Whether no record has been read since the last range in doubt.
    open: bool,
}

impl Gaps {
    /// None yet. Of those to come, so much is kept.
    pub fn new(most: Most) -> Gaps {
        Gaps {
            most,
            kept: Vec::new(),
            ranges: 0,
            more: 0,
            bytes_in_more: 0,
            open: false,
        }
    }

    /// A range in doubt, which comes after this record that can be read.
    pub fn add(&mut self, before: Option<Place>, range: Doubt) {
        let room = self.ranges < self.most.ranges;
        if !self.open && room && self.kept.len() < self.most.each {
            self.kept.push(Gap::new(before, &range));
        } else if !self.open {
            self.more += 1;
        }
        self.open = true;
        // Once one is not kept, no later one is.
        match self.kept.last_mut() {
            Some(gap) if self.more == 0 => {
                let keep = room && gap.ranges.len() < self.most.each;
                self.ranges += usize::from(keep);
                gap.add(range, keep);
            }
            _ => self.bytes_in_more += range.bytes(),
        }
    }

    /// A record that can be read, which ends a gap if there is one before it.
    pub fn close(&mut self, after: Place) {
        match self.kept.last_mut() {
            Some(gap) if self.open && self.more == 0 => gap.after = Some(after),
            _ => {}
        }
        self.open = false;
    }

    /// Whether there are gaps, or ranges of one, that are not kept.
    pub fn are_hidden(&self) -> bool {
        self.more > 0 || self.kept.iter().any(|gap| gap.hidden() > 0)
    }

    /// How many there are.
    pub fn number(&self) -> usize {
        self.kept.len() + self.more
    }

    /// How many bytes are in doubt.
    pub fn bytes(&self) -> usize {
        let kept: usize = self.kept.iter().map(|gap| gap.bytes).sum();
        kept + self.bytes_in_more
    }
}
