//! `mellansko verify`: what damage journals show, in plain words.

mod advice;
mod every;

use crate::journal::Source;
use crate::list::{self, All};
use crate::output::Output;
use crate::page::Page;
use crate::progress::Progress;
use crate::rows::Rows;
use crate::screen::Screen;
use crate::survey::Survey;
use crate::trouble::Trouble;
use crate::twins::{Comparing, Twins};
use crate::walk::Walk;
use crate::words::{grouped, shown};
use crate::Status;
use mellansko::LONGEST_RECORD;
use std::io;

/// What was found in a journal.
struct Finding<'a> {
    source: &'a Source,
    survey: Survey,
    twins: Twins,
    /// Its first bytes.
    beginning: Vec<u8>,
    wanted: Wanted,
}

/// Which of its gaps are to be listed.
#[derive(Clone, Copy, PartialEq, Eq)]
enum Wanted {
    /// The first ones alone.
    First,
    /// All of them: of a file, what is not kept can be read again.
    All,
    /// All that could be kept of what can be read only once, since the answer comes before it.
    Kept,
}

/// That, or why it could not be read.
type Found<'a> = Result<Finding<'a>, Trouble>;

pub fn verify(sources: &[Source], all: bool, output: &mut Output) -> Result<Status, Trouble> {
    let mut progress = Progress::new();
    let mut findings: Vec<_> = sources
        .iter()
        .map(|source| find(source, all, &mut progress))
        .collect();
    drop(progress);
    let screen = Screen::of(&io::stdout());
    if findings.len() > 1 {
        return several(&findings, screen, output);
    }
    let finding = findings.remove(0)?;
    alone(&finding, screen, output)?;
    Ok(finding.survey.status())
}

fn find<'a>(source: &'a Source, all: bool, progress: &mut Progress) -> Found<'a> {
    let wanted = match all {
        false => Wanted::First,
        true if source.can_be_read_again() => Wanted::All,
        true => Wanted::Kept,
    };
    let most = match wanted {
        Wanted::First | Wanted::All => list::FIRST,
        Wanted::Kept => list::KEPT,
    };
    let (mut comparing, mut beginning) = (Comparing::new(), Vec::new());
    let survey = source.fed(LONGEST_RECORD, progress).and_then(|fed| {
        Survey::of(Walk::new(fed), most, |piece| {
            comparing.add(piece);
            let missing = advice::BEGINNING - beginning.len();
            beginning.extend(piece.iter().take(missing));
        })
    });
    Ok(Finding {
        source,
        survey: survey.map_err(|not_read| source.not_read(not_read))?,
        twins: comparing.twins(),
        beginning,
        wanted,
    })
}

impl Finding<'_> {
    fn verdict(&self) -> String {
        format!("{}: {}.", shown(self.source.name()), self.survey.verdict())
    }

    /// Writes the answer, and then what it is about. Gives how many rows that has.
    fn report(&self, screen: Screen, output: &mut Output) -> Result<usize, Trouble> {
        let mut rows = Rows::new(screen, output);
        rows.entry(&self.verdict())?;
        rows.entries(&[self.twins.warning(), self.survey.empty_starts.line()])?;
        let (gaps, word) = (&self.survey.gaps, self.source.word());
        match self.wanted {
            Wanted::All if gaps.are_hidden() => every::gaps(self, &mut rows)?,
            Wanted::Kept => list::gaps(gaps, &All::by_way_of_a_file(word), &mut rows)?,
            _ => list::gaps(gaps, &All::of(word), &mut rows)?,
        }
        Ok(rows.number)
    }
}

/// All that there is to say of a single journal. If the answer is no longer in sight by then, it
/// comes again after the list.
fn alone(finding: &Finding, screen: Screen, output: &mut Output) -> Result<(), Trouble> {
    let rows = finding.report(screen, output)?;
    let advice = advice::for_one(finding, screen);
    if rows + advice.rows.len() > screen.rows {
        let mut again = Page::new(screen);
        again.empty_row();
        again.entry(&finding.verdict());
        output.page(&again)?;
    }
    output.page(&advice)
}

/// The journals one by one, with the answer for all of them before, and again after what does not
/// fit a screen.
fn several(findings: &[Found], screen: Screen, output: &mut Output) -> Result<Status, Trouble> {
    let mut summary = Page::new(screen);
    summary.entry(&in_all(findings));
    output.page(&summary)?;
    let mut rows = summary.rows.len();
    for finding in findings {
        match finding {
            Ok(finding) => rows += finding.report(screen, output)?,
            Err(trouble) => {
                output.flush()?;
                trouble.tell();
                rows += 1;
            }
        }
    }
    let advice = advice::for_several(findings, screen);
    if rows + advice.rows.len() > screen.rows {
        output.line("")?;
        output.page(&summary)?;
    }
    output.page(&advice)?;
    Ok(statuses(findings).max().unwrap_or(Status::Failed))
}

fn statuses<'a>(findings: &'a [Found]) -> impl Iterator<Item = Status> + 'a {
    findings.iter().map(|finding| match finding {
        Ok(finding) => finding.survey.status(),
        Err(_) => Status::Failed,
    })
}

/// The first line, where there are several journals.
fn in_all(findings: &[Found]) -> String {
    let of = |wanted| {
        statuses(findings)
            .filter(|&status| status == wanted)
            .count()
    };
    let (sound, doubt, failed) = (of(Status::Done), of(Status::Doubt), of(Status::Failed));
    let number = grouped(findings.len());
    let verdict = match (doubt, failed) {
        (0, 0) => format!("No damage found in any of {number} journals."),
        _ => format!(
            "{}: of {number} journals, {} in doubt, {} not read, {} with no damage found.",
            if doubt > 0 {
                "IN DOUBT"
            } else {
                "NOT ALL READ"
            },
            grouped(doubt),
            grouped(failed),
            grouped(sound),
        ),
    };
    let warned = |finding: &&Found| matches!(finding, Ok(found) if found.twins.warning().is_some());
    match findings.iter().filter(warned).count() {
        0 => verdict,
        warned => format!("{verdict} With a warning: {}.", grouped(warned)),
    }
}
