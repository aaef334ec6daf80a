//! `mellansko dump`: every answer of the reader, one a line, each as soon as it is certain.

mod follow;
mod grown;

pub use follow::follow;

use crate::fed::Fed;
use crate::gap::Doubt;
use crate::journal::Source;
use crate::output::Output;
use crate::progress::Progress;
use crate::trouble::Trouble;
use crate::Status;
use mellansko::{Answer, NotRead, Record, Refusal, Tail};
use std::fmt::{self, Write};
use std::io::Read;

/// Long lines say of a record how it was stored, too.
pub fn dump(
    source: &Source,
    limit: usize,
    long: bool,
    output: &mut Output,
) -> Result<Status, Trouble> {
    let mut progress = Progress::new();
    let mut fed = match source.fed(limit, &mut progress) {
        Ok(fed) => fed,
        Err(NotRead::Refused(refusal)) => {
            return refused(refusal, &source.refused(refusal), output);
        }
        Err(not_read) => return Err(source.not_read(not_read)),
    };
    let mut status = Status::Done;
    loop {
        let listed = list(&mut fed, long, output)?;
        status = status.max(listed.status);
        if listed.ended {
            return Ok(status);
        }
        match fed.read() {
            Ok([]) => fed.end(),
            Ok(_) => {}
            Err(NotRead::Refused(refusal)) => {
                fed.make_way();
                return refused(refusal, &source.refused_later(refusal), output);
            }
            Err(not_read) => return Err(source.not_read(not_read)),
        }
    }
}

/// What lines were about.
struct Listed {
    status: Status,
    /// Whether the end was among it.
    ended: bool,
}

/// Writes a line for each answer that is certain, and has them read before anything is waited for.
fn list(fed: &mut Fed<impl Read>, long: bool, output: &mut Output) -> Result<Listed, Trouble> {
    let mut listed = Listed {
        status: Status::Done,
        ended: false,
    };
    let came = fed.came();
    // One for all of them: there may be millions.
    let mut line = String::new();
    while let Some(answer) = fed.certain() {
        listed.ended = matches!(answer, Answer::End(_));
        if Doubt::by(&answer, came).is_some() {
            listed.status = Status::Doubt;
        }
        put(&answer, long, &mut line);
        fed.make_way();
        output.line(&line)?;
    }
    output.flush()?;
    Ok(listed)
}

/// Puts an answer into words, in place of the last one.
fn put(answer: &Answer, long: bool, line: &mut String) {
    line.clear();
    let written = match answer {
        Answer::Record { record, .. } => put_record(record, long, line),
        Answer::Skip(skip) => {
            let reason = skip.reason.number();
            write!(line, "S {} {} {reason}", skip.start, skip.end)
        }
        Answer::End(Tail::Clean) => write!(line, "E clean"),
        Answer::End(Tail::Torn(start)) => write!(line, "E torn {start}"),
    };
    written.expect("a text takes all that is written");
}

fn put_record(record: &Record, long: bool, line: &mut String) -> fmt::Result {
    write!(line, "R {} {} {}", record.start, record.end, record.length)?;
    match long {
        true => write!(line, " {} {}", record.fragments, record.last_header),
        false => Ok(()),
    }
}

/// The last line, for programs, and the message, for people, who get it whatever the output is.
fn refused(refusal: Refusal, why: &Trouble, output: &mut Output) -> Result<Status, Trouble> {
    let line = format!("X {}", refusal.condition.number());
    let written = output.line(&line).and_then(|()| output.flush());
    why.tell();
    written.map(|()| Status::Failed)
}
