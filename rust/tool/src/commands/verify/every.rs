//! Every gap of a file, and every range, however many there are.
//!
//! A gap's heading speaks of all of its ranges and comes before them, and there may be millions. So
//! the file is read twice more, side by side: one walk goes ahead to where the gap ends, and the
//! other comes after it to list the ranges. Neither keeps any.

use super::Finding;
use crate::empty_starts::EmptyStarts;
use crate::fed::Fed;
use crate::gap::{Doubt, Gap, Place};
use crate::gaps::{Gaps, Most};
use crate::list::entry;
use crate::progress::Progress;
use crate::rows::Rows;
use crate::trouble::Trouble;
use crate::walk::{Thing, Walk};
use mellansko::{Feed, NotRead};
use std::fs::File;
use std::io::{Read, Take};

pub fn gaps(finding: &Finding, rows: &mut Rows) -> Result<(), Trouble> {
    let not_read = |why| finding.source.not_read(why);
    let mut progress = Progress::beside_output();
    progress.begin(Some(finding.survey.length));
    let mut ahead = again(finding, Some(&mut progress)).map_err(not_read)?;
    let mut listing = Listing {
        after: again(finding, None).map_err(not_read)?,
        finding,
        rows,
    };
    let (mut all, mut empty_starts) = (Gaps::new(Most::NONE), EmptyStarts::default());
    let (mut open, mut last): (Option<Gap>, _) = (None, None);
    while let Some(thing) = ahead.next(|_| {}).map_err(not_read)? {
        match thing {
            Thing::Doubt(range) => {
                all.add(last, range);
                let gap = open.get_or_insert_with(|| Gap::new(last, &range));
                gap.add(range, false);
            }
            Thing::Record(place) => {
                all.close(place);
                listing.list(open.take(), Some(place))?;
                last = Some(place);
            }
            Thing::EmptyStart(range) => empty_starts.add(range),
        }
    }
    listing.list(open, None)?;
    let told = &finding.survey;
    let same = (all.number(), all.bytes()) == (told.gaps.number(), told.gaps.bytes())
        && empty_starts == told.empty_starts;
    match same && (last, ahead.came()) == (told.last, told.length) {
        true => Ok(()),
        false => Err(changed(finding)),
    }
}

type Again<'a> = Walk<'a, Take<File>>;

/// The file from its first byte on, as far as it was read before: what has been added since is no
/// part of the answer.
fn again<'a>(
    finding: &'a Finding,
    progress: Option<&'a mut Progress>,
) -> Result<Again<'a>, NotRead> {
    let word = finding.source.word();
    let file = File::open(word)?.take(finding.survey.length as u64);
    Ok(Walk::new(Fed::new(file, word, Feed::new(), progress)))
}

/// What the answer says is no longer there.
fn changed(finding: &Finding) -> Trouble {
    let why = "it was changed while it was read, so the list is not of one moment. Try again";
    Trouble::of(finding.source.name(), why)
}

/// The walk that comes after, and where it is listed.
struct Listing<'a, 'rows> {
    finding: &'a Finding<'a>,
    after: Again<'a>,
    rows: &'a mut Rows<'rows>,
}

impl Listing<'_, '_> {
    /// Lists a gap, if there is one before this record.
    fn list(&mut self, gap: Option<Gap>, after: Option<Place>) -> Result<(), Trouble> {
        let Some(mut gap) = gap else {
            return Ok(());
        };
        gap.after = after;
        self.rows.entry(&gap.heading())?;
        let mut bytes = 0;
        for _ in 0..gap.hidden() {
            let range = self.next_range()?;
            bytes += range.bytes();
            self.rows.point(&entry(&range))?;
        }
        match bytes == gap.bytes {
            true => Ok(()),
            false => Err(changed(self.finding)),
        }
    }

    fn next_range(&mut self) -> Result<Doubt, Trouble> {
        loop {
            let thing = self.after.next(|_| {});
            match thing.map_err(|why| self.finding.source.not_read(why))? {
                Some(Thing::Doubt(range)) => return Ok(range),
                Some(Thing::Record(_) | Thing::EmptyStart(_)) => {}
                None => return Err(changed(self.finding)),
            }
        }
    }
}
