//! examples/journal.c, held to the reference, and what the README shows of it.

use crate::files::skipped;
use crate::folder::{root, text, Folder, C, CLANG, CLANG_CPP, CPP, SANITIZED};
use crate::refusal_text;
use reference::log::{
    append, fragment, next, record_bytes, Appended, Next, Tail, FIRST, FULL, LONGEST_RECORD,
};
use std::fmt::Write as _;

#[test]
fn it_prints_what_the_reference_gives() {
    let folder = Folder::new("journal");
    for way in folder.there(&[C, SANITIZED, CLANG, CPP, CLANG_CPP]) {
        let printed = folder.run(way, &root().join("examples/journal.c"));
        assert_eq!(printed, journal(), "{way:?}");
    }
}

/// The README has a part of the example, and the command that makes it.
#[test]
fn the_readme_shows_the_example() {
    let [readme, example] = ["README.md", "examples/journal.c"].map(text);
    let block = |language: &str| {
        let (_, rest) = readme.split_once("\n## From C\n").expect("a section on C");
        let (_, rest) = rest
            .split_once(&format!("\n```{language}\n"))
            .expect("a block");
        rest.split_once("```").expect("the block's end").0
    };
    assert!(example.contains(block("c")), "{}", block("c"));
    let comment: String = example
        .lines()
        .filter_map(|line| line.strip_prefix(" * "))
        .collect();
    let words = |text: &str| text.split_whitespace().collect::<Vec<_>>().join(" ");
    assert!(words(&comment).ends_with(&words(block("sh"))), "{comment}");
}

/// What the example prints, if its calls are the reference's.
fn journal() -> String {
    let mut lines = String::new();
    let mut log = [0; 80];
    let mut mark = 0;
    for record in [
        "factor LW10-1 0.9137",
        "start 17 LW10-1",
        "finish 17 2:04.31",
        "finish 18 2:07.90",
    ] {
        match append(&mut log, mark, record.as_bytes()) {
            Appended::Mark(end) => {
                mark = end;
                lines += &format!("appended up to {mark}\n");
            }
            Appended::Refused { number, given } => {
                let why = refusal_text(number);
                lines += &format!("refused at {given}, {why}: {record}\n");
            }
        }
    }
    lines += &format!("as written\n{}", reading(&log[..mark]));
    log[40] ^= 1;
    lines += &format!("with byte 40 changed\n{}", reading(&log[..mark]));
    log[40] ^= 1;
    lines += &format!("cut 5 bytes before its end\n{}", reading(&log[..mark - 5]));
    let log = [
        fragment(FIRST, b""),
        fragment(FULL, b"factor LW10-1 0.9137"),
    ]
    .concat();
    let mark = log.len();
    lines += &format!(
        "with an empty start\nappended up to {mark}\n{}",
        reading(&log)
    );
    lines
}

fn reading(log: &[u8]) -> String {
    let mut lines = String::new();
    let mut buffer = vec![0; LONGEST_RECORD];
    let mut place = 0;
    loop {
        let answer = next(log, place, LONGEST_RECORD, &mut buffer);
        place = answer.place_after(log);
        let line = match answer {
            Next::Record { start, end, .. } => {
                let bytes = record_bytes(log, &buffer, &answer);
                let text = String::from_utf8_lossy(bytes);
                format!("record {start} to {end}: {text}")
            }
            Next::Skip { start, end, reason } => skipped(start, end, reason).trim_end().into(),
            Next::End(Tail::Clean) => format!("clean end at {place}"),
            Next::End(Tail::Torn(start)) => format!("torn from {start} to {}", log.len()),
            Next::Refused { number, given } => {
                format!("refused at {given}: {}", refusal_text(number))
            }
        };
        writeln!(lines, "{line}").expect("a String takes all");
        if matches!(answer, Next::End(_) | Next::Refused { .. }) {
            return lines;
        }
    }
}
