//! The bytes of a journal, from a file or from standard input.

use crate::fed::Fed;
use crate::progress::Progress;
use crate::shell::{another, for_mended, me, operand, to_mend, typed};
use crate::trouble::{note, Trouble};
use crate::words::grouped;
use crate::wrap::tied;
use mellansko::{Condition, Feed, NotRead, Refusal, LONGEST_LOG, LONGEST_RECORD};
use std::ffi::{OsStr, OsString};
use std::fs::{self, File};
use std::io::{self, IsTerminal, Read};

/// Where a journal comes from.
pub enum Source {
    File(OsString),
    StandardInput,
}

impl Source {
    pub fn name(&self) -> &OsStr {
        match self {
            Source::File(path) => path,
            Source::StandardInput => OsStr::new(INPUT),
        }
    }

    /// What names it on the command line.
    pub fn word(&self) -> &OsStr {
        match self {
            Source::File(path) => path,
            Source::StandardInput => OsStr::new("-"),
        }
    }

    /// Whether it can be read a second time, and is the same then, unless somebody changes it.
    pub fn can_be_read_again(&self) -> bool {
        match self {
            Source::File(path) => fs::metadata(path).is_ok_and(|about| about.is_file()),
            Source::StandardInput => false,
        }
    }

    /// It as it comes, with a limit on the length of a record.
    pub fn fed<'a>(
        &'a self,
        limit: usize,
        progress: &'a mut Progress,
    ) -> Result<Fed<'a, Box<dyn Read>>, NotRead> {
        let file = match self {
            Source::File(path) => Some(open(path)?),
            Source::StandardInput => None,
        };
        let feed = Feed::with_limit(limit)?;
        progress.begin(file.as_ref().and_then(length_of));
        let (from, progress): (Box<dyn Read>, _) = match file {
            Some(file) => (Box::new(file), Some(progress)),
            None => {
                let input = io::stdin().lock();
                let typed = is_typed(&input, PROMPT);
                (Box::new(input), (!typed).then_some(progress))
            }
        };
        Ok(Fed::new(from, self.name(), feed, progress))
    }

    /// The message for a journal of which nothing is told, since it can't be read or is refused.
    pub fn not_read(&self, not_read: NotRead) -> Trouble {
        match not_read {
            NotRead::Io(error) => Trouble::io(self.name(), "be read", &error),
            NotRead::Refused(refusal) => self.refused(refusal),
        }
    }

    /// The message for a journal that the reader refuses.
    pub fn refused(&self, refusal: Refusal) -> Trouble {
        Trouble::of(self.name(), &why_refused(refusal, self.word()))
    }

    /// The same after lines on its beginning.
    pub fn refused_later(&self, refusal: Refusal) -> Trouble {
        let (why, _) = why_and_advice(refusal, self.word());
        let what =
            format!("{why}. The lines are of its beginning, and nothing after it was judged");
        Trouble::of(self.name(), &what)
    }
}

/// A file to be read as it comes. One that is too long is refused before anything of it is read, so
/// that no line on its beginning passes for a line on all of it. How long a pipe is shows when it
/// has come, and then the proved reader refuses it.
pub fn open(path: &OsStr) -> Result<File, NotRead> {
    let file = File::open(path)?;
    refuse_too_long(&file)?;
    Ok(file)
}

/// Refuses a plain file that has more bytes than a journal may have.
pub fn refuse_too_long(file: &File) -> Result<(), NotRead> {
    let about = file.metadata()?;
    if about.is_file() && about.len() > LONGEST_LOG as u64 {
        let (condition, given) = (Condition::LogTooLong, 0);
        return Err(Refusal { condition, given }.into());
    }
    Ok(())
}

/// How many bytes a plain file has.
pub fn length_of(file: &File) -> Option<usize> {
    let about = file.metadata().ok().filter(|about| about.is_file())?;
    about.len().try_into().ok()
}

const PROMPT: &str = "reading a journal from the terminal; end it with Ctrl-D on a line of its own";

const INPUT: &str = "standard input";

/// Standard input, at most one byte more than so many. Whoever is to type it is told so, and nothing
/// is shown meanwhile.
pub fn read_input(prompt: &str, most: usize, progress: &mut Progress) -> Result<Vec<u8>, Trouble> {
    let name = OsStr::new(INPUT);
    let input = io::stdin().lock();
    match is_typed(&input, prompt) {
        true => read(input, name, most, &mut Progress::silent()),
        false => read(input, name, most, progress),
    }
    .map_err(|error| Trouble::io(name, "be read", &error))
}

/// Whether somebody is to type it, who is told so.
fn is_typed(input: &impl IsTerminal, prompt: &str) -> bool {
    let typed = input.is_terminal();
    if typed {
        note(prompt);
    }
    typed
}

/// At most one byte more than so many.
fn read(
    from: impl Read,
    name: &OsStr,
    most: usize,
    progress: &mut Progress,
) -> io::Result<Vec<u8>> {
    const PIECE: usize = 1 << 20;
    let mut from = from.take(most as u64 + 1);
    let mut all = Vec::new();
    let mut used = 0;
    loop {
        all.resize(used + PIECE, 0);
        match from.read(&mut all[used..]) {
            Ok(0) => break,
            Ok(more) => used += more,
            Err(error) if error.kind() == io::ErrorKind::Interrupted => {}
            Err(error) => return Err(error),
        }
        progress.read(name, used);
    }
    all.truncate(used);
    Ok(all)
}

/// What to type where a journal takes no more records.
pub fn begin_another(file: &OsStr) -> String {
    typed("append --new", &another(file), "")
}

/// What to type for all records of a journal in doubt that can be read.
pub fn mend_into_another(file: &OsStr) -> String {
    to_mend(file, &for_mended(file))
}

/// Why a proved call refuses a journal or a record, and what to do.
pub fn why_refused(refusal: Refusal, file: &OsStr) -> String {
    let (why, advice) = why_and_advice(refusal, file);
    format!("{why}{advice}")
}

fn why_and_advice(refusal: Refusal, file: &OsStr) -> (String, String) {
    let (log, record) = (grouped(LONGEST_LOG), grouped(LONGEST_RECORD));
    let (why, advice) = match refusal.condition {
        Condition::LogTooLong => (
            format!("it is longer than {log} bytes, the most that a journal may have"),
            format!(
                ". Nothing of it was judged; for what its beginning holds, with an end that may look torn, run: {}",
                only_beginning(file)
            ),
        ),
        Condition::RecordTooLong => (
            format!("the record is longer than {record} bytes, the most that one may have"),
            ". Append it in parts, as several records".into(),
        ),
        Condition::NoRoom => (
            format!("with the record the journal would be longer than {log} bytes"),
            format!(". Begin another: {}", begin_another(file)),
        ),
        Condition::LimitTooHigh => (format!("the highest limit is {record} bytes"), String::new()),
        _ => (refusal.to_string(), String::new()),
    };
    let number = refusal.condition.number();
    (format!("{why} (refusal {number})"), advice)
}

/// What to type for as much of a file as a journal may have.
fn only_beginning(file: &OsStr) -> String {
    let (me, file) = (me(), operand(file));
    tied(&format!("head -c {LONGEST_LOG} {file} | {me} verify -"))
}
