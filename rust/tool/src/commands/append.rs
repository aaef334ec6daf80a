//! `mellansko append`: a record from standard input, at the end of a journal in which nothing is in
//! doubt.
//!
//! What the file held is never written to: it only grows, and a write that fails is taken back. It is
//! read as it comes, and what is added is made aside: however long the journal is, no more of it is
//! in memory than a block and a record.

mod aside;
mod file;

use crate::fed::Fed;
use crate::gaps::Most;
use crate::journal;
use crate::meaning;
use crate::page::Page;
use crate::progress::Progress;
use crate::screen::Screen;
use crate::shell::typed;
use crate::survey::Survey;
use crate::trouble::{note, Trouble};
use crate::walk::Walk;
use crate::words::{bytes, from_to, grouped, shown};
use crate::Status;
use mellansko::{Feed, NotRead, LONGEST_RECORD};
use std::ffi::{OsStr, OsString};
use std::fs::File;
use std::io::{self, IsTerminal, Read, Write};

pub fn append(path: &OsString, new: bool) -> Result<Status, Trouble> {
    // Before the record is read, so that a wrong name or a doubt shows before it is typed; and again
    // after it, since by then the name may stand for another file.
    if let Some(file) = file::found(path, new)? {
        if io::stdin().is_terminal() && sound(Some(&file), path)?.is_none() {
            return Ok(Status::Doubt);
        }
    }
    let record = record_from_input()?;
    let old = file::found(path, new)?;
    if let Some(file) = &old {
        file::hold(file, path)?;
    }
    let Some(survey) = sound(old.as_ref(), path)? else {
        return Ok(Status::Doubt);
    };
    let added = aside::append(survey.length, &record);
    let added = added.map_err(|refusal| file::refused(path, refusal))?;
    file::store(old, path, survey.length, added.bytes())?;
    say(&format!(
        "{}: record {} appended, of {}, as {}.",
        shown(path),
        grouped(survey.records() + 1),
        bytes(record.len()),
        from_to(added.start, added.end)
    ));
    Ok(Status::Done)
}

/// What is in the journal, if nothing is in doubt there; if something is, that is told. In one that
/// is to be begun there is nothing.
fn sound(file: Option<&File>, path: &OsStr) -> Result<Option<Survey>, Trouble> {
    let mut progress = Progress::new();
    progress.begin(file.and_then(journal::length_of));
    let from: Box<dyn Read> = match file {
        Some(file) => Box::new(file),
        None => Box::new(io::empty()),
    };
    let fed = Fed::new(from, path, Feed::new(), Some(&mut progress));
    let survey = Survey::of(Walk::new(fed), Most::NONE, |_| {});
    drop(progress);
    let survey = survey.map_err(|not_read| match not_read {
        NotRead::Io(error) => Trouble::io(path, "be read", &error),
        NotRead::Refused(refusal) => file::refused(path, refusal),
    })?;
    if survey.status() == Status::Done {
        return Ok(Some(survey));
    }
    tell_doubt(path, &survey);
    Ok(None)
}

fn tell_doubt(path: &OsStr, survey: &Survey) {
    let why = match survey.is_only_dirty_trailers() {
        true => meaning::of_blocks_filled_up(survey.dirty_trailers),
        false => "After what is in doubt, a record might not be found again".into(),
    };
    note(&format!(
        "{}: nothing was appended: {}. {why}.",
        shown(path),
        survey.verdict()
    ));
    note(&format!(
        "to begin another journal: {}",
        journal::begin_another(path)
    ));
    note(&format!(
        "to see what is in doubt: {}",
        typed("verify", path, "")
    ));
    if survey.last.is_some() {
        note(&format!(
            "to write all readable records into a new journal, which will not show {}: {}",
            meaning::unseen(survey),
            journal::mend_into_another(path)
        ));
    }
}

/// The record is in the file by now: that nobody hears of it does not change that.
fn say(line: &str) {
    let mut page = Page::new(Screen::of(&io::stdout()));
    page.entry(line);
    let _ = io::stdout().write_all(format!("{}\n", page.rows.join("\n")).as_bytes());
}

fn record_from_input() -> Result<Vec<u8>, Trouble> {
    let prompt =
        "type the record, and end it with Ctrl-D on a line of its own; its last line break is a part of it";
    journal::read_input(prompt, LONGEST_RECORD, &mut Progress::new())
}
