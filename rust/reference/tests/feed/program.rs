//! The program over standard input: its lines.

use reference::log::{fragment, BLOCK, FIRST, FULL, LONGEST_LOG};
use reference::runs::{example, feed};
use std::io::{self, Read};

/// Input that arrives in drops.
struct Drops<'a> {
    rest: &'a [u8],
    drop: usize,
}

impl Read for Drops<'_> {
    fn read(&mut self, into: &mut [u8]) -> io::Result<usize> {
        let length = self.drop.min(self.rest.len()).min(into.len());
        into[..length].copy_from_slice(&self.rest[..length]);
        self.rest = &self.rest[length..];
        Ok(length)
    }
}

/// The same lines, however the input arrives.
fn lines(log: &[u8]) -> String {
    let mut lines = Vec::new();
    feed::run(&mut &log[..], &mut lines).expect("a Vec takes all");
    for drop in [700, 32_767, 32_769] {
        let mut out = Vec::new();
        feed::run(&mut Drops { rest: log, drop }, &mut out).expect("a Vec takes all");
        assert!(out == lines);
    }
    String::from_utf8(lines).expect("text")
}

const EXAMPLE: &str = "R 0 1007 1000\n\
                       S 1007 32768 7\n\
                       S 32768 65536 5\n\
                       S 65536 98298 5\n\
                       R 98304 106311 8000\n\
                       E clean\n";

#[test]
fn of_the_example() {
    assert_eq!(lines(&example::log()), EXAMPLE);
}

/// In the third record's header, in its data, and in the trailer before it.
#[test]
fn of_the_example_cut() {
    let log = example::log();
    let whole: Vec<&str> = EXAMPLE.lines().collect();
    let [before, torn] = [whole[..4].join("\n"), "E torn 98304\n".to_string()];
    assert_eq!(lines(&log[..98_309]), format!("{before}\n{torn}"));
    assert_eq!(lines(&log[..106_310]), format!("{before}\n{torn}"));
    assert_eq!(lines(&log[..98_300]), format!("{before}\nE clean\n"));
}

/// A damaged block in the second record, whose FIRST is over the limit; and one in the first.
#[test]
fn of_the_example_damaged() {
    let mut log = example::log();
    log[40_000] ^= 1;
    let damaged = EXAMPLE.replace("S 32768 65536 5", "S 32768 65536 3");
    assert_eq!(lines(&log), damaged);
    log[500] ^= 1;
    let first = damaged.replace("R 0 1007 1000\nS 1007 32768 7", "S 0 32768 3");
    assert_eq!(lines(&log), first);
}

/// The trailer before the third record, with a byte that is not zero; all of it, and cut.
#[test]
fn of_the_example_with_a_dirty_trailer() {
    let mut log = example::log();
    log[98_300] = 1;
    let before = "S 65536 98298 5\n";
    let dirty = EXAMPLE.replace(before, &format!("{before}S 98298 98304 9\n"));
    assert_eq!(lines(&log), dirty);
    let whole: Vec<&str> = EXAMPLE.lines().collect();
    let before = whole[..4].join("\n");
    let cut = format!("{before}\nS 98298 98301 9\nE clean\n");
    assert_eq!(lines(&log[..98_301]), cut);
    assert_eq!(lines(&log[..98_300]), format!("{before}\nE clean\n"));
}

#[test]
fn of_small_logs() {
    assert_eq!(lines(&[]), "E clean\n");
    assert_eq!(lines(&[7; 6]), "E torn 0\n");
    assert_eq!(lines(&[0; 7]), "S 0 7 2\nE clean\n");
    let open = fragment(FIRST, b"open");
    assert_eq!(lines(&open), "E torn 0\n");
    let interrupted = [open, fragment(FULL, b"")].concat();
    assert_eq!(lines(&interrupted), "S 0 11 4\nR 11 18 0\nE clean\n");
    let empty_start = [fragment(FIRST, b""), fragment(FULL, b"")].concat();
    assert_eq!(lines(&empty_start), "S 0 7 8\nR 7 14 0\nE clean\n");
}

/// The longest log there may be, and a byte more: what was certain before it, and the refusal.
#[test]
fn of_a_log_that_is_too_long() {
    let log = vec![0; LONGEST_LOG + 1];
    let blocks: String = (0..LONGEST_LOG / BLOCK)
        .map(|block| format!("S {} {} 2\n", block * BLOCK, (block + 1) * BLOCK))
        .collect();
    let mut out = Vec::new();
    feed::run(&mut &log[1..], &mut out).expect("a Vec takes all");
    assert!(out == format!("{blocks}E clean\n").as_bytes());
    out.clear();
    // In drops too: a piece is what has been read up to its length, and none passes the limit but
    // the last.
    let (rest, drop) = (&log[..], 5_000);
    feed::run(&mut Drops { rest, drop }, &mut out).expect("a Vec takes all");
    assert!(out == format!("{blocks}X 1\n").as_bytes());
}

/// A torn tail that reaches up to the limit is not answered before the refusal.
#[test]
fn of_a_tail_before_the_refusal() {
    let mut log = vec![0; LONGEST_LOG + 1];
    let first = fragment(FIRST, b"open");
    log[LONGEST_LOG - first.len()..LONGEST_LOG].copy_from_slice(&first);
    let full = fragment(FULL, &[7; BLOCK - 7 - 11]);
    log[LONGEST_LOG - BLOCK..][..full.len()].copy_from_slice(&full);
    let mut out = Vec::new();
    feed::run(&mut &log[..], &mut out).expect("a Vec takes all");
    let out = String::from_utf8(out).expect("text");
    let last: Vec<&str> = out.lines().rev().take(2).collect();
    assert_eq!(last, ["X 1", "S 1073709056 1073741813 7"]);
}
