//! What was found means this, for whoever needs the records.

use crate::survey::Survey;
use crate::words::{count, grouped};
use mellansko::{Reason, LONGEST_RECORD};

/// What to compare, where no damage is found, and why.
pub fn compare(what: &str) -> String {
    format!(
        "{what} with what you expect: records cut off at the end, and blocks left out, repeated or \
         replaced by sound ones, may not show."
    )
}

/// Of gaps, of which nothing is handed out, say. One that is a long record alone is no such gap, nor
/// is one that is a dirty trailer alone.
pub fn of_gaps(survey: &Survey, handed_out: &str) -> Option<String> {
    let apart = [Reason::OverLimit, Reason::DirtyTrailer];
    let gaps = match survey.gaps.number() {
        1 => "the gap",
        _ => "the gaps",
    };
    let mut reasons = survey.reasons.iter();
    reasons.any(|reason| !apart.contains(reason)).then(|| {
        format!(
            "Nothing of {gaps} is {handed_out}, and nobody can tell how many records were written \
             there. One of them may have been newer than a record before it, and have replaced it, \
             as new factors or a new start list do. Do not rely on what may have been replaced: \
             ask for another copy of the journal, or ask whoever wrote it."
        )
    })
}

/// Of records above the limit.
pub fn of_long_records(survey: &Survey) -> Option<String> {
    let long = survey.reasons.contains(&Reason::OverLimit);
    long.then(|| {
        format!(
            "A record of more than {} bytes may be sound: this tool does not read it, but the \
             program that wrote it may.",
            grouped(LONGEST_RECORD)
        )
    })
}

/// Of dirty trailers: no record has a byte there, but what else was changed nobody can tell.
pub fn of_dirty_trailers(survey: &Survey) -> Option<String> {
    let dirty = survey.reasons.contains(&Reason::DirtyTrailer);
    dirty.then(|| {
        "The bytes that fill up a block belong to no record, and have to be zeros. Where they are \
         not, something wrote that should not have, as a fault of the disk or of a copy does. It \
         may have changed more than shows: compare the records with what you expect, or with \
         another copy of the journal."
            .into()
    })
}

/// So many blocks whose last bytes are dirty trailers, for a line that says more.
pub fn of_blocks_filled_up(blocks: usize) -> String {
    let blocks = count(blocks, "block", "blocks");
    format!(
        "The bytes that fill up {blocks} belong to no record, but are not all zero: something \
         wrote there that should not have"
    )
}

/// What a new journal of all records that can be read does not show of the one in doubt.
pub fn unseen(survey: &Survey) -> &'static str {
    match survey.is_only_dirty_trailers() {
        true => "that anything was wrong",
        false => "that anything is missing",
    }
}

/// Of an end that is torn, and whose it is.
pub fn of_torn_end(survey: &Survey, whose: &str) -> Option<String> {
    let see = match survey.last {
        Some(_) => ", so see whether the last record that can be read is the one you expect",
        None => "",
    };
    survey.torn.map(|_| {
        format!(
            "{whose} end is torn: that may be the record that was being written when the power \
             went. Damage in the last block can look the same{see}."
        )
    })
}
