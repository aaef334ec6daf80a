//! What is said of the new journal: what was kept, and what was lost.

use super::{Mending, Names};
use crate::list::{self, All};
use crate::meaning;
use crate::output::Output;
use crate::page::Page;
use crate::rows::Rows;
use crate::screen::Screen;
use crate::shell::typed;
use crate::trouble::Trouble;
use crate::words::{bytes, records, shown};
use crate::Status;
use std::io;

/// The answer, then what was lost one by one, and what to do. If the answer is no longer in sight
/// by then, it comes again after the list.
pub fn tell(mending: &Mending, mut output: Output) -> Result<(), Trouble> {
    let screen = Screen::of(&io::stdout());
    let answer = [kept(mending), lost(mending)];
    let mut rows = Rows::new(screen, &mut output);
    answer.iter().try_for_each(|line| rows.entry(line))?;
    // Where the blocks of the new journal begin elsewhere, the warning does not show there.
    let survey = &mending.survey;
    let starts = survey.empty_starts.line();
    let starts = starts.map(|line| format!("{line} The new journal has none."));
    rows.entries(&[mending.twins.warning(), starts])?;
    list::gaps(&survey.gaps, &All::of(mending.names.bad), &mut rows)?;
    let (rows, advice) = (rows.number, advice(mending, screen));
    if rows + advice.rows.len() > screen.rows {
        let mut again = Page::new(screen);
        again.empty_row();
        answer.iter().for_each(|line| again.entry(line));
        output.page(&again)?;
    }
    output.page(&advice)?;
    output.flush()
}

/// Where not all of that could be written. Of a pipe that was closed nobody needs to hear.
pub fn cut_short(names: &Names, trouble: Trouble) -> Trouble {
    let Trouble::Message(why) = trouble else {
        return trouble;
    };
    let what = format!(
        "it is written, but not all could be told of what was kept and what was lost: {why}. To \
         see what damage the bad journal shows: {}",
        typed("verify", names.bad, "")
    );
    Trouble::of(names.new, &what)
}

fn kept(mending: &Mending) -> String {
    let [bad, new] = [mending.names.bad, mending.names.new].map(shown);
    let number = mending.survey.records();
    if number == 0 {
        return format!("{new}: kept no record, so it is empty.");
    }
    let same = match mending.same {
        true => format!(", the same, byte for byte, as {bad}"),
        false => String::new(),
    };
    let (records, bytes) = (records(number), bytes(mending.new.len()));
    format!("{new}: kept {records}, in {bytes}{same}.")
}

fn lost(mending: &Mending) -> String {
    let (bad, survey) = (shown(mending.names.bad), &mending.survey);
    match survey.status() {
        Status::Done => format!("{bad}: nothing was left out: {}.", survey.verdict()),
        _ if survey.is_only_dirty_trailers() => {
            format!("{bad}: LEFT OUT: {}.", survey.doubtful())
        }
        _ => format!("{bad}: LOST: {}.", survey.doubtful()),
    }
}

fn advice(mending: &Mending, screen: Screen) -> Page {
    let mut page = Page::new(screen);
    let (bad, survey) = (mending.names.bad, &mending.survey);
    if survey.status() == Status::Done {
        page.prose(&meaning::compare("Compare the records"));
        return page;
    }
    page.empty_row();
    let was = match survey.is_only_dirty_trailers() {
        true => "wrong",
        false => "lost",
    };
    page.prose(&format!(
        "What to do now: keep {}. It alone shows that something was {was}: in the new journal no \
         damage will be found.",
        shown(bad)
    ));
    if survey.may_be_no_journal() {
        page.prose(&format!(
            "Nothing in {} can be read as a record: is it a journal? What it begins with:",
            shown(bad)
        ));
        page.command(&typed("verify", bad, ""));
        return page;
    }
    let cases = [
        meaning::of_gaps(survey, "in the new journal"),
        meaning::of_long_records(survey),
        meaning::of_dirty_trailers(survey),
        meaning::of_torn_end(survey, "The bad journal's"),
    ];
    cases.iter().flatten().for_each(|case| page.prose(case));
    if survey.last.is_some() {
        page.prose("To go on in the new journal, with the record that you type next:");
        page.command(&typed("append", mending.names.new, ""));
    }
    page
}
