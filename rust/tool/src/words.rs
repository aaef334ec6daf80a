//! Numbers, names and lists as a reader of English wants them.

use crate::wrap::{tied, TIED};
use mellansko::BLOCK;
use std::ffi::OsStr;

/// A number with its thousands set apart, from five digits on. By a space: a comma, a point and an
/// apostrophe each part a number from its fraction somewhere.
pub fn grouped(number: usize) -> String {
    let digits = number.to_string();
    if digits.len() < 5 {
        return digits;
    }
    let mut text = String::new();
    for (i, digit) in digits.chars().enumerate() {
        if i > 0 && (digits.len() - i).is_multiple_of(3) {
            text.push(TIED);
        }
        text.push(digit);
    }
    text
}

/// So many of something.
pub fn count(number: usize, one: &str, many: &str) -> String {
    let what = if number == 1 { one } else { many };
    format!("{}{TIED}{what}", grouped(number))
}

/// Something by its number.
pub fn numbered(what: &str, number: usize) -> String {
    format!("{what}{TIED}{}", grouped(number))
}

pub fn bytes(number: usize) -> String {
    count(number, "byte", "bytes")
}

pub fn records(number: usize) -> String {
    count(number, "record", "records")
}

/// A place and the one that it ends before.
pub fn from_to(start: usize, end: usize) -> String {
    tied(&format!("bytes {} to {}", grouped(start), grouped(end)))
}

/// The same with a byte in it: where it is, how long, and in which blocks.
pub fn range(start: usize, end: usize) -> String {
    let (first, last) = blocks_of(start, end);
    format!(
        "{} ({}, {})",
        from_to(start, end),
        bytes(end - start),
        blocks(first, last)
    )
}

/// The first and the last of the blocks, counted from 1, that a range with a byte in it touches.
pub fn blocks_of(start: usize, end: usize) -> (usize, usize) {
    (start / BLOCK + 1, (end - 1) / BLOCK + 1)
}

/// Blocks from one to another.
pub fn blocks(first: usize, last: usize) -> String {
    let blocks = match last - first {
        0 => format!("block {}", grouped(first)),
        _ => format!("blocks {} to {}", grouped(first), grouped(last)),
    };
    tied(&blocks)
}

/// Some of a journal's blocks, as runs of their numbers: "block 3 of 5", "blocks 1 and 5 to 7 of 9",
/// or how many there are, if they are too scattered for a line.
pub fn blocks_among(runs: &[(usize, usize)], in_all: usize) -> String {
    const MOST: usize = 3;
    if runs.len() > MOST {
        let number = runs.iter().map(|(first, last)| last - first + 1).sum();
        return format!("{} of its {} blocks", grouped(number), grouped(in_all));
    }
    let one = |&(first, last): &(usize, usize)| match last - first {
        0 => grouped(first),
        _ => format!("{} to {}", grouped(first), grouped(last)),
    };
    let word = match runs {
        [(first, last)] if first == last => "block",
        _ => "blocks",
    };
    let runs: Vec<String> = runs.iter().map(one).collect();
    format!("{word} {} of{TIED}{}", runs.join(" and "), grouped(in_all))
}

/// The end of a file's name, of so many characters, for a line with more on it.
pub fn short(name: &OsStr, most: usize) -> String {
    let name = shown(name);
    let more = name.chars().count().saturating_sub(most.max(1));
    match name.char_indices().nth(more) {
        Some((place, _)) if more > 0 => format!("...{}", &name[place..]),
        _ => name,
    }
}

/// A file's name with nothing in it that would move a terminal's cursor, end the line, or turn the
/// direction of what follows.
pub fn shown(name: &OsStr) -> String {
    let name = name.to_string_lossy();
    let mut text = String::new();
    for c in name.chars() {
        if c.is_control() || ends_or_turns(c) {
            text.extend(c.escape_default());
        } else {
            text.push(c);
        }
    }
    text
}

/// The marks of Unicode that end a line or a paragraph, or turn the direction.
pub fn ends_or_turns(c: char) -> bool {
    matches!(c, '\u{61c}' | '\u{200e}' | '\u{200f}' | '\u{2028}'..='\u{202e}' | '\u{2066}'..='\u{2069}')
}
