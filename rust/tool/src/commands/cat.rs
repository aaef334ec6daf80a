//! `mellansko cat`: the bytes of one record.

mod harmless;

use crate::fed::Fed;
use crate::gap::Doubt;
use crate::journal::Source;
use crate::meaning::of_blocks_filled_up;
use crate::output::Output;
use crate::progress::Progress;
use crate::shell::typed;
use crate::trouble::{note, Trouble};
use crate::walk::{Thing, Walk};
use crate::words::{count, grouped, records, shown};
use crate::Status;
use harmless::harmless;
use mellansko::{NotRead, Reason, LONGEST_RECORD};
use std::io::{self, IsTerminal, Read};

/// The records that can be read are numbered from 1 on.
pub fn cat(source: &Source, number: usize, output: &mut Output) -> Result<Status, Trouble> {
    let mut progress = Progress::new();
    let sought = source
        .fed(LONGEST_RECORD, &mut progress)
        .and_then(|fed| Sought::in_journal(fed, number))
        .map_err(|not_read| source.not_read(not_read))?;
    drop(progress);
    let doubts = &sought.doubts;
    let Some(record) = sought.record else {
        return Err(missing(source, number, sought.found, doubts));
    };
    let changed = write(&record, output)?;
    output.flush()?;
    if changed {
        tell_changed(source, number);
    }
    if *doubts == Doubts::default() {
        return Ok(Status::Done);
    }
    warn(source, number, doubts);
    Ok(Status::Doubt)
}

/// What a journal has of a record.
struct Sought {
    /// Its bytes, if it can be read. They are kept until the journal has been read to its end: of one
    /// that turns out to be too long, or can't be read, nothing is handed out.
    record: Option<Vec<u8>>,
    /// How many records can be read.
    found: usize,
    doubts: Doubts,
}

impl Sought {
    fn in_journal(fed: Fed<impl Read>, number: usize) -> Result<Sought, NotRead> {
        let mut walk = Walk::keeping(number, fed);
        let (mut found, mut doubts) = (0, Doubts::default());
        while let Some(thing) = walk.next(|_| {})? {
            match thing {
                Thing::Record(_) => found += 1,
                Thing::Doubt(range) => doubts.add(&range, found < number),
                Thing::EmptyStart(_) => {}
            }
        }
        Ok(Sought {
            record: walk.kept(),
            found,
            doubts,
        })
    }
}

/// What is in doubt.
#[derive(Default, PartialEq, Eq)]
struct Doubts {
    /// So many bytes before the record and after it, in which more records may have been.
    before: usize,
    after: usize,
    /// So many dirty trailers: no record has a byte there.
    trailers: usize,
}

impl Doubts {
    fn add(&mut self, range: &Doubt, before: bool) {
        match range.reason {
            Some(Reason::DirtyTrailer) => self.trailers += 1,
            _ if before => self.before += range.bytes(),
            _ => self.after += range.bytes(),
        }
    }

    /// What is said of dirty trailers, if there are any.
    fn of_trailers(&self) -> Option<String> {
        (self.trailers > 0).then(|| of_blocks_filled_up(self.trailers))
    }
}

/// Writes the record; to a terminal nothing that it would obey, and its last line ended. Says
/// whether a byte is shown as another.
fn write(record: &[u8], output: &mut Output) -> Result<bool, Trouble> {
    if !io::stdout().is_terminal() {
        output.write(record)?;
        return Ok(false);
    }
    let text = harmless(record);
    output.write(text.as_bytes())?;
    if !text.is_empty() && !text.ends_with('\n') {
        output.write(b"\n")?;
    }
    Ok(text.as_bytes() != record)
}

fn tell_changed(source: &Source, number: usize) {
    let rest = format!("{number} > record-{number}");
    let cat = typed("cat", source.word(), &rest);
    note(&format!(
        "bytes that are no text, or that a terminal would obey, are shown by their numbers, as \\x1b; for the record's \
         own bytes: {cat}"
    ));
}

fn missing(source: &Source, number: usize, found: usize, doubts: &Doubts) -> Trouble {
    let doubt = match doubts.before {
        0 => String::new(),
        bytes => format!(
            ". Another {} in doubt, which may have held more",
            in_doubt(bytes)
        ),
    };
    let trailers = doubts.of_trailers();
    let trailers = trailers.map_or(String::new(), |said| format!(". {said}"));
    let (number, there) = (grouped(number), records(found));
    let what = format!("no record {number} can be read; only {there} can be read{doubt}{trailers}");
    Trouble::of(source.name(), &what)
}

fn in_doubt(bytes: usize) -> String {
    count(bytes, "byte is", "bytes are")
}

/// What is lost before the record may shift its number, and what is lost after it may be a newer one
/// that was to take its place.
fn warn(source: &Source, number: usize, doubts: &Doubts) {
    let mut what = format!(
        "this is record {} of those that can be read.",
        grouped(number)
    );
    if doubts.before > 0 {
        let doubt = in_doubt(doubts.before);
        what += &format!(
            " Before it {doubt} in doubt, so more may have been written before it than its number says."
        );
    }
    if doubts.after > 0 {
        let doubt = in_doubt(doubts.after);
        what += &format!(" After it {doubt} in doubt, which may have held a newer one.");
    }
    if let Some(trailers) = doubts.of_trailers() {
        what += &format!(" {trailers}.");
    }
    let verify = typed("verify", source.word(), "");
    note(&format!(
        "{}: {what} To see where: {verify}",
        shown(source.name())
    ));
}
