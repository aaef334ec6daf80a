//! The bad journal, which is only read.

use super::Names;
use crate::fed::Fed;
use crate::journal::{self, why_refused};
use crate::progress::Progress;
use crate::trouble::{in_words, Trouble};
use mellansko::{Feed, NotRead};
use std::fs::{self, File, Metadata, TryLockError};
use std::io;

pub struct Bad<'a> {
    names: &'a Names<'a>,
    file: File,
    /// Who may do what with it, among other things.
    pub about: Metadata,
}

/// Why there is no new journal, where the bad one is the reason.
pub fn not_mended(names: &Names, why: &str) -> Trouble {
    Trouble::of(names.bad, &format!("nothing was written: {why}"))
}

pub fn not_read(names: &Names, error: &io::Error) -> Trouble {
    not_mended(names, &format!("it could not be read: {}", in_words(error)))
}

/// A plain file alone, since it has to be kept.
pub fn open<'a>(names: &'a Names) -> Result<Bad<'a>, Trouble> {
    let not_read = |error| not_read(names, &error);
    // Asked before it is opened: a pipe that nobody writes to would be waited for.
    let about = fs::metadata(names.bad).map_err(not_read)?;
    if about.is_dir() {
        return Err(not_read(io::ErrorKind::IsADirectory.into()));
    }
    if !about.is_file() {
        let why = "it is not a plain file. Write what it gives to one, keep that, and mend it";
        return Err(not_mended(names, why));
    }
    let file = journal::open(names.bad).map_err(|why| match why {
        NotRead::Io(error) => not_read(error),
        NotRead::Refused(refusal) => not_mended(names, &why_refused(refusal, names.bad)),
    })?;
    lock(&file, names)?;
    // Of what was opened, since another file may have the name by now.
    let about = file.metadata().map_err(not_read)?;
    Ok(Bad { names, file, about })
}

/// Keeps appends off until the new journal is there: what one has written by half would pass for a
/// loss. A disk without locks is no hindrance: there this tool does not append.
fn lock(file: &File, names: &Names) -> Result<(), Trouble> {
    match file.try_lock_shared() {
        Err(TryLockError::WouldBlock) => Err(not_mended(
            names,
            "another program is appending to it, or has it locked. Try again when that is done",
        )),
        _ => Ok(()),
    }
}

impl Bad<'_> {
    /// How many bytes it had when it was opened.
    pub fn length(&self) -> usize {
        self.about.len() as usize
    }

    /// It from its first byte on. One that got too long meanwhile is refused by the proved reader.
    pub fn fed<'a>(&'a self, progress: &'a mut Progress) -> Fed<'a, &'a File> {
        progress.begin(Some(self.length()));
        Fed::new(&self.file, self.names.bad, Feed::new(), Some(progress))
    }
}
