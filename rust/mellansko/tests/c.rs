//! The header for C, the examples that use it, and the script that installs it.

#[path = "c/feed.rs"]
mod feed;
#[path = "c/files.rs"]
mod files;
#[path = "c/folder.rs"]
mod folder;
#[path = "c/header.rs"]
mod header;
#[path = "c/install.rs"]
mod install;
#[path = "c/journal.rs"]
mod journal;
#[path = "c/mend.rs"]
mod mend;
mod mended;

use mellansko::{Condition, Reason, Refusal};

/// A reason's text, by its number.
fn reason_text(number: u8) -> String {
    Reason::ALL[usize::from(number) - 1].to_string()
}

/// A refusal's text, by its number, without the mark or place that was given. In C number 2 may be
/// of a feed as well (docs/FORMAT.md, §11.11).
fn refusal_text(number: u8) -> String {
    let mut all = Condition::ALL.iter();
    let condition = all.find(|condition| condition.number() == number);
    let condition = *condition.expect("a condition's number");
    let given = 4711;
    let text = Refusal { condition, given }.to_string();
    let outside = "the mark or place is beyond the log's end, or the feed's numbers do not fit";
    text.replace("mark or place 4711 is beyond the log's end", outside)
        .replace(" from mark 4711 on", "")
}
