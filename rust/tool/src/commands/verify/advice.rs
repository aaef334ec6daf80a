//! What to do now, after what was found.

use super::{statuses, Finding, Found};
use crate::gap::Place;
use crate::journal::{begin_another, mend_into_another, Source};
use crate::meaning;
use crate::page::Page;
use crate::screen::Screen;
use crate::shell::typed;
use crate::survey::Survey;
use crate::words::grouped;
use crate::Status;
use std::ffi::OsStr;

/// As many bytes of a file as are shown where nothing in it can be read: those of a header.
pub const BEGINNING: usize = 7;

/// As many journals as are named again after a report on several.
const NAMED: usize = 5;

pub fn for_one(finding: &Finding, screen: Screen) -> Page {
    let mut page = Page::new(screen);
    let survey = &finding.survey;
    if survey.status() == Status::Done {
        page.prose(&meaning::compare("Compare the records"));
        return page;
    }
    page.empty_row();
    page.prose("What to do now: keep the file as it is.");
    match survey.may_be_no_journal() {
        true => page.prose(&unreadable(finding)),
        false => by_case(survey).iter().for_each(|case| page.prose(case)),
    }
    commands(finding, &mut page);
    page
}

/// Where it may be no journal at all.
fn unreadable(finding: &Finding) -> String {
    let then = match finding.survey.torn {
        Some(0) => "If it is one, its first record may have been written just when the power went.",
        _ => "If it is one, ask for another copy of it.",
    };
    format!(
        "Nothing in it can be read as a record: is it a journal? A journal begins with a checksum of four bytes, a \
         length of two and a kind of one; this file begins with \"{}\". {then}",
        finding.beginning.escape_ascii()
    )
}

/// What each kind of doubt means, where it is a journal.
fn by_case(survey: &Survey) -> Vec<String> {
    let torn = meaning::of_torn_end(survey, "Its");
    let torn = torn.map(|torn| format!("{torn} To go on, begin a new journal."));
    let gaps = meaning::of_gaps(survey, "handed out");
    let (long, dirty) = (
        meaning::of_long_records(survey),
        meaning::of_dirty_trailers(survey),
    );
    [gaps, long, dirty, torn].into_iter().flatten().collect()
}

/// What can be typed next.
fn commands(finding: &Finding, page: &mut Page) {
    let survey = &finding.survey;
    let word = finding.source.word();
    page.prose(match finding.source {
        Source::File(_) => "All that is in it:",
        Source::StandardInput => "All that is in it, with the same input again:",
    });
    page.command(&typed("dump", word, ""));
    let which = match survey.gaps.number() {
        1 => "the gap",
        _ => "the first gap",
    };
    let first = &survey.gaps.kept[0];
    let (before, after) = (first.before, first.after);
    let around = match (before, after) {
        (Some(_), Some(_)) => format!("The records before and after {which}:"),
        (Some(_), None) => "The last record that can be read:".into(),
        (None, _) => format!("The record after {which}:"),
    };
    cats(word, &around, &[before, after], page);
    if survey.gaps.number() > 1 && survey.torn.is_some() {
        cats(
            word,
            "The last record that can be read:",
            &[survey.last],
            page,
        );
    }
    new_journals(finding, page);
}

/// What can be written now, where some records can be read.
fn new_journals(finding: &Finding, page: &mut Page) {
    let (Source::File(path), Some(_)) = (finding.source, finding.survey.last) else {
        return;
    };
    if finding.source.can_be_read_again() {
        page.prose(&format!(
            "All readable records into a new journal, which will not show {}:",
            meaning::unseen(&finding.survey)
        ));
        page.command(&mend_into_another(path));
    }
    if finding.survey.torn.is_some() {
        page.prose("A new journal, with the record that you type next:");
        page.command(&begin_another(path));
    }
}

/// The commands for some records, of which none may be there.
fn cats(word: &OsStr, lead: &str, places: &[Option<Place>], page: &mut Page) {
    let mut places = places.iter().flatten().peekable();
    if places.peek().is_some() {
        page.prose(lead);
    }
    for place in places {
        page.command(&typed("cat", word, &place.number.to_string()));
    }
}

pub fn for_several(findings: &[Found], screen: Screen) -> Page {
    let mut page = Page::new(screen);
    if statuses(findings).any(|status| status == Status::Done) {
        page.prose(&meaning::compare(
            "Where no damage is found, compare the records",
        ));
    }
    let doubtful: Vec<&Finding> = findings
        .iter()
        .flatten()
        .filter(|finding| finding.survey.status() == Status::Doubt)
        .collect();
    if doubtful.is_empty() {
        return page;
    }
    page.empty_row();
    page.prose(
        "What to do now: keep a journal in doubt as it is. What can be read of it may be out of date, if a newer record \
         was lost. What to do about each:",
    );
    for finding in doubtful.iter().take(NAMED) {
        page.command(&typed("verify", finding.source.word(), ""));
    }
    if doubtful.len() > NAMED {
        let more = grouped(doubtful.len() - NAMED);
        page.prose(&format!(
            "And so on with the other {more} that are in doubt."
        ));
    }
    page
}
