//! How much was compared.

#[path = "several.rs"]
mod several;

use reference::log::{Next, BLOCK, HEADER};
pub use several::Several;
use std::ops::AddAssign;

const INTERRUPTED: u8 = 4;
const EMPTY_START: u8 = 8;
const DIRTY_TRAILER: u8 = 9;

/// Calls, and how often each reason was met.
#[derive(Clone, Copy, Default)]
pub struct Made {
    pub calls: usize,
    reasons: [usize; 10],
    dirty: Dirty,
    several: Several,
    /// The last range that was skipped, if it is a record that breaks off: where it starts and ends.
    broken: Option<(usize, usize)>,
}

/// How many dirty trailers were met (docs/FORMAT.md, §14), and in which of the cases that differ.
#[derive(Clone, Copy, Debug, Default)]
pub struct Dirty {
    pub all: usize,
    /// After a record that is open there and breaks off, and after one that is an empty FIRST alone.
    pub open: usize,
    pub open_and_empty: usize,
    /// Where the log ends inside the trailer.
    pub cut: usize,
    /// At a place that was made up.
    pub made_up: usize,
}

impl Made {
    /// An answer was given.
    pub fn answered(&mut self, answer: &Next) {
        match *answer {
            Next::Record {
                start,
                end,
                length,
                fragments,
                ..
            } => self.handed_out(start, end, length, fragments),
            Next::Skip { start, end, reason } => self.skipped(start, end, reason),
            Next::End(_) | Next::Refused { .. } => {}
        }
    }

    /// A skipped range was answered.
    pub fn skipped(&mut self, start: usize, end: usize, reason: u8) {
        self.reasons[usize::from(reason)] += 1;
        if reason == DIRTY_TRAILER {
            let open = self.broken.filter(|(_, broken_at)| *broken_at == start);
            let empty = open.filter(|(begun, _)| begun + HEADER == start);
            self.dirty += Dirty {
                all: 1,
                open: usize::from(open.is_some()),
                open_and_empty: usize::from(empty.is_some()),
                cut: usize::from(!end.is_multiple_of(BLOCK)),
                made_up: 0,
            };
        }
        self.broken = (reason == INTERRUPTED).then_some((start, end));
    }

    /// A record of so many bytes and fragments was answered.
    pub fn handed_out(&mut self, start: usize, end: usize, length: usize, fragments: usize) {
        let mut several = Several::of(start, end, length, fragments);
        if self.broken.is_some_and(|(_, broken_at)| broken_at == start) {
            several.after_broken = several.all;
        }
        self.several += several;
    }

    /// The last call was made at a place that was made up.
    pub fn made_up(&mut self, answer: &Next) {
        let dirty = matches!(*answer, Next::Skip { reason, .. } if reason == DIRTY_TRAILER);
        self.dirty.made_up += usize::from(dirty);
    }

    /// Inputs without a record that breaks off and without an empty start would show nothing of
    /// either: so many of each at least.
    pub fn has_met(&self, interrupted: usize, empty_starts: usize) -> &Made {
        let reasons = self.reasons;
        println!("reasons from 0 on: {reasons:?}");
        let met = |reason: u8| reasons[usize::from(reason)];
        assert!(met(INTERRUPTED) >= interrupted, "reason 4, {reasons:?}");
        assert!(met(EMPTY_START) >= empty_starts, "reason 8, {reasons:?}");
        self
    }

    /// Nor would those without dirty trailers, in each of the cases.
    pub fn has_met_dirty(&self, least: Dirty) -> &Made {
        let met = self.dirty;
        println!("{met:?}");
        let enough = met.all >= least.all
            && met.open >= least.open
            && met.open_and_empty >= least.open_and_empty
            && met.cut >= least.cut
            && met.made_up >= least.made_up;
        assert!(enough, "{met:?}, and not {least:?}");
        self
    }

    /// Nor would those without records of several fragments, in each of the layouts.
    pub fn has_met_several(&self, least: Several) {
        let met = self.several;
        println!("{met:?}");
        assert!(met.are_enough(least), "{met:?}, and not {least:?}");
    }
}

impl AddAssign for Dirty {
    fn add_assign(&mut self, other: Dirty) {
        self.all += other.all;
        self.open += other.open;
        self.open_and_empty += other.open_and_empty;
        self.cut += other.cut;
        self.made_up += other.made_up;
    }
}

impl AddAssign for Made {
    fn add_assign(&mut self, other: Made) {
        self.calls += other.calls;
        for (sum, more) in self.reasons.iter_mut().zip(other.reasons) {
            *sum += more;
        }
        self.dirty += other.dirty;
        self.several += other.several;
        self.broken = None;
    }
}
