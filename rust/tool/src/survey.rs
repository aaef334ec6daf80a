//! What one reading of a journal finds.

use crate::empty_starts::EmptyStarts;
use crate::gap::{Doubt, Place};
use crate::gaps::{Gaps, Most};
use crate::walk::{Thing, Walk};
use crate::words::blocks_of;
use crate::Status;
use mellansko::{NotRead, Reason, BLOCK};
use std::io::Read;

pub struct Survey {
    /// The journal's bytes.
    pub length: usize,
    /// The last record that can be read.
    pub last: Option<Place>,
    /// What is in doubt.
    pub gaps: Gaps,
    /// Why, each reason once.
    pub reasons: Vec<Reason>,
    /// How many dirty trailers there are.
    pub dirty_trailers: usize,
    /// Where the torn tail starts, if there is one.
    pub torn: Option<usize>,
    /// What is skipped, and not in doubt.
    pub empty_starts: EmptyStarts,
    /// What is in each block. They are few: a journal that is too long is refused.
    pub marks: Vec<Mark>,
}

/// What is in a block.
#[derive(Clone, Copy, Default)]
pub struct Mark {
    /// Whether a skipped range that is in doubt has a byte in it.
    pub doubt: bool,
    /// Whether the torn tail has.
    pub torn: bool,
    /// Whether a record runs on from it into the next.
    pub runs_on: bool,
}

impl Survey {
    /// Goes through a journal to its end. Of its gaps so much is kept. Each piece that comes is
    /// handed on.
    pub fn of(
        mut walk: Walk<impl Read>,
        most: Most,
        mut piece: impl FnMut(&[u8]),
    ) -> Result<Survey, NotRead> {
        let mut survey = Survey {
            length: 0,
            last: None,
            gaps: Gaps::new(most),
            reasons: Vec::new(),
            dirty_trailers: 0,
            torn: None,
            empty_starts: EmptyStarts::default(),
            marks: Vec::new(),
        };
        while let Some(thing) = walk.next(&mut piece)? {
            match thing {
                Thing::Record(place) => survey.record(place),
                Thing::Doubt(range) => survey.doubt(range),
                Thing::EmptyStart(range) => survey.empty_starts.add(range),
            }
        }
        survey.length = walk.came();
        survey.marks.resize(survey.blocks(), Mark::default());
        Ok(survey)
    }

    fn record(&mut self, place: Place) {
        self.gaps.close(place);
        self.last = Some(place);
        let (first, last) = blocks_of(place.start, place.end);
        self.mark(first, last - 1, |mark| mark.runs_on = true);
    }

    fn doubt(&mut self, range: Doubt) {
        self.gaps.add(self.last, range);
        let (first, last) = blocks_of(range.start, range.end);
        match range.reason {
            Some(reason) => {
                self.mark(first, last, |mark| mark.doubt = true);
                self.dirty_trailers += usize::from(reason == Reason::DirtyTrailer);
                if !self.reasons.contains(&reason) {
                    self.reasons.push(reason);
                }
            }
            None => {
                self.mark(first, last, |mark| mark.torn = true);
                self.torn = Some(range.start);
            }
        }
    }

    /// Marks the blocks from one to another, counted from 1.
    fn mark(&mut self, first: usize, last: usize, mark: impl FnMut(&mut Mark)) {
        let blocks = self.marks.len().max(last);
        self.marks.resize(blocks, Mark::default());
        self.marks[first - 1..last].iter_mut().for_each(mark);
    }

    /// Whether nothing in it reads as a record, not even as one that is too long to be read, nor as
    /// an empty start: after such a one the next stands, and the checksums of both are right.
    pub fn may_be_no_journal(&self) -> bool {
        let too_long = self.reasons.contains(&Reason::OverLimit);
        self.last.is_none() && !too_long && self.empty_starts.are_none()
    }

    /// Whether all that is in doubt are dirty trailers. No record has a byte there: to say that one
    /// may have been there, or was lost, would be more than is known.
    pub fn is_only_dirty_trailers(&self) -> bool {
        self.reasons == [Reason::DirtyTrailer] && self.torn.is_none()
    }

    /// How many records can be read.
    pub fn records(&self) -> usize {
        self.last.map_or(0, |last| last.number)
    }

    /// How many bytes the skipped ranges have, without the torn tail and without empty starts: as
    /// many as mending answers.
    pub fn skipped(&self) -> usize {
        let torn = self.torn.map_or(0, |start| self.length - start);
        self.gaps.bytes() - torn
    }

    pub fn blocks(&self) -> usize {
        self.length.div_ceil(BLOCK)
    }

    pub fn status(&self) -> Status {
        match self.gaps.number() {
            0 => Status::Done,
            _ => Status::Doubt,
        }
    }
}
