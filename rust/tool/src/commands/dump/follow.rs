//! `mellansko dump --follow`: a file that grows, until somebody ends it.

use super::grown::Grown;
use super::{list, refused};
use crate::fed::Fed;
use crate::journal::Source;
use crate::output::Output;
use crate::trouble::Trouble;
use crate::Status;
use mellansko::{Feed, NotRead};
use std::ffi::OsStr;
use std::time::Duration;

/// How long a file is left alone that has not grown. Nobody who watches lines come in notices it.
const PAUSE: Duration = Duration::from_millis(100);

/// Nothing is announced, so no end is told: what the file ends in may be a record that is being
/// written.
pub fn follow(
    path: &OsStr,
    limit: usize,
    long: bool,
    output: &mut Output,
) -> Result<Status, Trouble> {
    let source = Source::File(path.into());
    let begun = Grown::open(path).and_then(|file| Ok((file, Feed::with_limit(limit)?)));
    let (file, feed) = match begun {
        Ok(begun) => begun,
        Err(NotRead::Refused(refusal)) => {
            return refused(refusal, &source.refused(refusal), output);
        }
        Err(not_read) => return Err(source.not_read(not_read)),
    };
    let mut fed = Fed::new(file, path, feed, None);
    loop {
        list(&mut fed, long, output)?;
        match fed.read() {
            Ok([]) => output.wait(PAUSE)?,
            Ok(_) => {}
            Err(NotRead::Io(error)) => {
                return Err(Trouble::io(path, "be followed any further", &error))
            }
            Err(NotRead::Refused(refusal)) => {
                return refused(refusal, &source.refused_later(refusal), output);
            }
        }
    }
}
