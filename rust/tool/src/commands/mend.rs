//! `mellansko mend`: the records of a bad journal that can be read, in a new one.
//!
//! The bad one is only read. The new one is there when all of it is on the disk, or not at all.

mod allowed;
mod bad;
mod file;
mod name;
mod room;
mod told;

use crate::journal::why_refused;
use crate::list;
use crate::output::Output;
use crate::progress::Progress;
use crate::survey::Survey;
use crate::trouble::Trouble;
use crate::twins::{Comparing, Twins};
use crate::walk::Walk;
use crate::words::{bytes, grouped};
use crate::Status;
use bad::Bad;
use mellansko::NotRead;
use room::Room;
use std::ffi::OsStr;

/// The two journals by their names.
struct Names<'a> {
    bad: &'a OsStr,
    new: &'a OsStr,
}

/// What was read, and what was made of it.
struct Mending<'a> {
    names: &'a Names<'a>,
    /// What is in the bad journal, and the blocks of it that are equal.
    survey: Survey,
    twins: Twins,
    /// The new journal's bytes.
    new: Vec<u8>,
    /// Whether they are those of the bad one.
    same: bool,
}

pub fn mend(bad: &OsStr, new: &OsStr, output: Output) -> Result<Status, Trouble> {
    let names = &Names { bad, new };
    let mut progress = Progress::new();
    let bad = bad::open(names)?;
    // Before the journal is read, so that a wrong name shows at once.
    name::make_sure_it_is_free(names)?;
    let mending = made(names, &bad, &mut progress)?;
    file::store(names, &mending.new, &bad.about)?;
    drop(progress);
    // The new journal is there by now: that nobody hears of it does not change that.
    if let Err(trouble) = told::tell(&mending, output) {
        told::cut_short(names, trouble).tell();
    }
    Ok(mending.survey.status())
}

/// The new journal in memory. What the reader says is lost has to be what the mender left out.
fn made<'a>(names: &'a Names, bad: &Bad, progress: &mut Progress) -> Result<Mending<'a>, Trouble> {
    let refused = |refusal| bad::not_mended(names, &why_refused(refusal, names.bad));
    let length = bad.length();
    let lacking = |_| bad::not_mended(names, &room::lacking(length));
    // Before the journal is read, which may take long.
    let mut room = Room::for_journal(length).map_err(lacking)?;
    let mut comparing = Comparing::new();
    let survey = Survey::of(Walk::new(bad.fed(progress)), list::FIRST, |piece| {
        comparing.add(piece);
        room.add(piece);
    });
    let survey = survey.map_err(|not_read| match not_read {
        NotRead::Io(error) => bad::not_read(names, &error),
        NotRead::Refused(refusal) => refused(refusal),
    })?;
    let made = room.mend().map_err(lacking)?.map_err(refused)?;
    if let Some(why) = disagreement(survey.skipped(), made.skipped) {
        return Err(bad::not_mended(names, &why));
    }
    Ok(Mending {
        names,
        survey,
        twins: comparing.twins(),
        same: made.same,
        new: made.new,
    })
}

/// Between how many bytes the reader skips and the mender leaves out. Proved calls have none.
fn disagreement(skipped: usize, left_out: usize) -> Option<String> {
    (skipped != left_out).then(|| {
        format!(
            "it was mended with {} left out, but {} in doubt. This tool is not built as it should \
             be: build it anew",
            bytes(left_out),
            grouped(skipped)
        )
    })
}

/// The proved calls agree, so no journal shows this.
#[test]
fn a_reader_and_a_mender_that_disagree_are_noticed() {
    assert_eq!(disagreement(0, 0), None);
    assert_eq!(disagreement(41_605, 41_605), None);
    for (skipped, left_out) in [(0, 1), (1, 0), (41_605, 41_604)] {
        let why = disagreement(skipped, left_out).expect("a disagreement");
        assert!(why.contains("build it anew"), "{why}");
    }
}
