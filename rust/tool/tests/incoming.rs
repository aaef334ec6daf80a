//! `mellansko dump -`: each line comes as soon as it is certain, over a pipe that pauses.

#[macro_use]
mod common;

use common::damage::{long_logs, mixed_log};
use common::expect::{blank_blocks, certain, dumped, example, written};
use common::live::{first_line, Live};
use common::random::Random;
use common::{fed, finish, tool, Ran};
use reference::log::{fragment, BLOCK, FIRST, FULL, HEADER, LAST, LONGEST_LOG, MIDDLE};
use std::io::Write;
use std::process::Stdio;
use std::thread;
use std::time::Duration;

fn dump() -> Live {
    Live::run(tool().args(["dump", "-"]))
}

/// A log in which small things of every kind stand, the last one torn.
fn small_log() -> Vec<u8> {
    let orphan = fragment(MIDDLE, b"orphan");
    let (first, last) = (fragment(FIRST, b"LW"), fragment(LAST, b"10-1"));
    let unknown = fragment(9, b"?");
    let full = fragment(FULL, b"0.9137");
    let broken_off = fragment(FIRST, b"broken off");
    let empty_start = fragment(FIRST, b"");
    let parts = [
        &full,
        &orphan,
        &first,
        &last,
        &unknown,
        &broken_off,
        &full,
        &empty_start,
        &first,
        &last,
    ];
    let mut log: Vec<u8> = parts.into_iter().flatten().copied().collect();
    log.extend(&full[..8]);
    log
}

#[test]
fn a_line_comes_with_the_last_byte_that_it_takes() {
    let log = small_log();
    let mut live = dump();
    live.in_drops(&log, Live::feed);
    let ran = live.end();
    assert_eq!((ran.status, ran.err.as_str()), (Some(1), ""));
    assert_eq!(ran.text(), dumped(&log, 4_194_304));
    assert!(ran.text().ends_with(&format!("E torn {}\n", log.len() - 8)));
}

/// What is bad ends with its block, so no sooner; and so does a record that runs on into the next.
#[test]
fn what_ends_with_its_block_is_told_when_the_block_has_come() {
    let mut log = mixed_log();
    log.push(4);
    let mut live = dump();
    let mut came = 0;
    for end in [
        BLOCK,
        2 * BLOCK,
        3 * BLOCK,
        3 * BLOCK + 2 * HEADER,
        log.len(),
    ] {
        live.feed(&log[came..end - 1]);
        live.has_written(&certain(&log[..end - 1], 4_194_304));
        live.is_quiet();
        live.feed(&log[end - 1..end]);
        live.has_written(&certain(&log[..end], 4_194_304));
        came = end;
    }
    let ran = live.end();
    assert_eq!(ran.text(), dumped(&log, 4_194_304));
    assert!(ran.text().ends_with("E clean\n"), "{}", ran.text());
}

/// The example of the format's page, in one piece that runs over the ends of blocks.
#[test]
fn a_piece_of_several_blocks_is_listed_to_its_last_byte() {
    let log = example();
    let mut live = dump();
    live.feed(&log);
    live.has_written("R 0 1007 1000\nR 1007 98298 97270\nR 98304 106311 8000\n");
    live.is_quiet();
    let ran = live.end();
    assert_eq!(ran.done().text(), dumped(&log, 4_194_304));
}

#[test]
fn an_input_without_a_byte_is_not_ended_before_it_is_closed() {
    let mut live = dump();
    live.is_quiet();
    assert_eq!(live.end().done().text(), "E clean\n");
}

#[test]
fn it_makes_no_difference_how_a_log_is_cut_into_pieces() {
    let mut random = Random::new();
    println!("{random}");
    for log in long_logs(&mut random, 6) {
        let mut live = dump();
        let mut came = 0;
        while came < log.len() {
            let bits = random.below(17);
            let end = log.len().min(came + 1 + random.below(1 << bits));
            live.feed(&log[came..end]);
            came = end;
            // Now and then it is seen to have said all that is certain.
            if random.below(10) == 0 {
                live.has_written(&certain(&log[..came], 4_194_304));
            }
        }
        assert_eq!(live.end().text(), dumped(&log, 4_194_304));
        let (verified, plain) = verified_in_pieces(&log, &mut random);
        assert_eq!(
            (verified.status, verified.text()),
            (plain.status, plain.text())
        );
    }
}

/// What verify says of a log that comes in pieces, and of one that comes at once.
fn verified_in_pieces(log: &[u8], random: &mut Random) -> (Ran, Ran) {
    let mut live = Live::run(tool().args(["verify", "-"]));
    let mut rest = log;
    while !rest.is_empty() {
        // Often just before or after the end of a block.
        let left = BLOCK - (log.len() - rest.len()) % BLOCK;
        let length = match random.below(3) {
            0 => 1 + random.below(50_000),
            1 => left - 1,
            _ => left + 1,
        };
        let (piece, after) = rest.split_at(rest.len().min(length));
        live.feed(piece);
        // So that it is read as it is cut.
        thread::sleep(Duration::from_millis(2));
        rest = after;
    }
    (live.end(), fed(tool().args(["verify", "-"]), log))
}

#[test]
fn equal_blocks_that_come_in_pieces_are_found() {
    let mut random = Random::new();
    println!("{random}");
    let log = written(&vec![vec![7; BLOCK - HEADER]; 10]);
    let (verified, plain) = verified_in_pieces(&log, &mut random);
    assert!(plain.done().text().contains("WARNING: 9 blocks are equal"));
    assert_eq!(verified.done().text(), plain.text());
}

#[test]
fn a_limit_that_is_refused_waits_for_nothing() {
    let mut live = Live::run(tool().args(["dump", "--limit", "4194305", "-"]));
    let ran = live.ended();
    assert_eq!(ran.text(), "X 5\n");
    ran.complained(2, &["standard input", "4 194 304", "refusal 5"]);
}

/// How long a pipe is shows only when it has come: what was certain by then stands.
#[test]
fn a_pipe_that_is_too_long_is_refused_after_what_was_certain() {
    let mut live = dump();
    let zeros = vec![0; 1 << 20];
    (0..LONGEST_LOG / zeros.len()).for_each(|_| live.feed(&zeros));
    let lines = blank_blocks(0..LONGEST_LOG / BLOCK);
    live.has_written(&lines);
    live.is_quiet();
    live.feed(&[1]);
    // It does not wait for the pipe's end.
    let ran = live.ended();
    assert!(ran.text() == lines + "X 1\n");
    ran.complained(
        2,
        &[
            "standard input",
            "longer than 1 073 741 824 bytes",
            "refusal 1",
        ],
    );
    ran.warned(&["of its beginning", "nothing after it was judged"]);
    assert!(!ran.err.contains("Nothing of it was judged"), "{}", ran.err);
}

#[test]
fn a_closed_output_ends_it_without_a_word_while_the_input_is_open() {
    let mut command = tool();
    command.args(["dump", "-"]).stdin(Stdio::piped());
    command.stdout(Stdio::piped()).stderr(Stdio::piped());
    let mut child = command.spawn().expect("the tool");
    let mut input = child.stdin.take().expect("its input");
    let record = written(&[b"1"]);
    input.write_all(&record).expect("it is read");
    assert_eq!(first_line(&mut child), "R 0 8 1\n");
    // At the next line; or later, if a program that another test starts holds the pipe just now.
    let fed = (0..1_000).take_while(|_| {
        thread::sleep(Duration::from_millis(10));
        input.write_all(&record).is_ok()
    });
    assert!(fed.count() < 1_000);
    let ran = finish(child, Vec::new());
    assert_eq!((ran.status, ran.err.as_str()), (Some(2), ""));
}

#[test]
fn an_input_that_can_not_be_read_is_named() {
    let folder = std::fs::File::open(env!("CARGO_TARGET_TMPDIR")).expect("a folder");
    let ran = common::ran(tool().args(["dump", "-"]).stdin(folder));
    ran.failed(2, &["standard input", "could not be read", "folder"]);
}
