//! The gaps of a journal, each with its ranges.

use crate::gap::{Doubt, Gap};
use crate::gaps::{Gaps, Most};
use crate::rows::Rows;
use crate::shell::{by_way_of_a_file, typed};
use crate::trouble::Trouble;
use crate::words::{self, bytes, count, grouped};
use mellansko::{Reason, LONGEST_RECORD};
use std::ffi::OsStr;

/// As many gaps, and as many ranges of one, as are listed unless all are asked for.
pub const FIRST: Most = Most {
    each: 20,
    ranges: 20 * 20,
};

/// As many as are listed where all are asked for of what can be read only once. They have to be kept,
/// since the answer comes before them: these take 20 MB at most.
pub const KEPT: Most = Most {
    each: usize::MAX,
    ranges: 100_000,
};

/// How to see all gaps, where not all are listed.
pub struct All {
    lead: String,
    command: String,
}

impl All {
    /// Of the journal that the word names.
    pub fn of(word: &OsStr) -> All {
        All {
            lead: "To see all of them:".into(),
            command: typed("verify --all", word, ""),
        }
    }

    /// The same, where all were asked for already.
    pub fn by_way_of_a_file(word: &OsStr) -> All {
        All {
            lead: format!(
                "Of a journal that can be read only once, no more than {} are listed. To see all \
                 of them, with the same input again, by way of a file:",
                count(KEPT.ranges, "range", "ranges")
            ),
            command: by_way_of_a_file("verify --all", word),
        }
    }
}

/// Those that were kept, and how many there are besides.
pub fn gaps(gaps: &Gaps, all: &All, rows: &mut Rows) -> Result<(), Trouble> {
    gaps.kept.iter().try_for_each(|gap| list(gap, rows))?;
    if gaps.more > 0 {
        let more = count(gaps.more, "more gap", "more gaps");
        let doubt = bytes(gaps.bytes_in_more);
        rows.entry(&format!("And {more}, with {doubt} in doubt."))?;
    }
    if gaps.are_hidden() {
        rows.entry(&all.lead)?;
        rows.write(|page| page.command(&all.command))?;
    }
    Ok(())
}

fn list(gap: &Gap, rows: &mut Rows) -> Result<(), Trouble> {
    rows.entry(&gap.heading())?;
    for range in &gap.ranges {
        rows.point(&entry(range))?;
    }
    match gap.hidden() {
        0 => Ok(()),
        hidden => {
            let more = count(hidden, "more range", "more ranges");
            rows.point(&format!("and {more} in this gap"))
        }
    }
}

pub fn entry(range: &Doubt) -> String {
    format!(
        "{}: {}",
        words::range(range.start, range.end),
        match range.reason {
            Some(reason) => in_words(reason),
            None => "torn tail, the journal ends inside of what starts here".into(),
        }
    )
}

/// The limit is the highest there is: whoever asks has named none.
fn in_words(reason: Reason) -> String {
    let (number, name) = (reason.number(), reason.name());
    let why = match reason {
        Reason::OverLimit => format!(
            "a record longer than {} bytes, the most that one may have",
            grouped(LONGEST_RECORD)
        ),
        _ => reason.to_string(),
    };
    format!("{why} (reason {number}, {name})")
}
