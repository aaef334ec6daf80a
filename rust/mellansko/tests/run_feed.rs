//! The proved program that reads a log from standard input, crates/run_feed, against the
//! reference's: the same lines, whatever the log is and however it arrives.

#[path = "compare/make.rs"]
mod make;
mod random;

use random::Random;
use reference::log::{BLOCK, HEADER, LONGEST_LOG};
use reference::runs::{example, feed};
use std::io::{BufRead, BufReader, Write};
use std::path::{Path, PathBuf};
use std::process::{Child, Command, Stdio};
use std::sync::OnceLock;
use std::thread;
use std::time::Duration;

/// The program, proved anew if it has to be.
fn program() -> &'static Path {
    static PROGRAM: OnceLock<PathBuf> = OnceLock::new();
    PROGRAM.get_or_init(|| {
        let folder = Path::new(env!("CARGO_MANIFEST_DIR")).join("../../crates/run_feed");
        let mut rt = Command::new("rt");
        // It also runs the program: here over no bytes.
        let proved = rt.arg("run").current_dir(&folder).stdin(Stdio::null());
        let proved = proved.output();
        let proved = proved.expect("the Rattle toolchain's `rt`, which proves the program");
        let said = [proved.stdout, proved.stderr].concat();
        let said = String::from_utf8_lossy(&said);
        assert!(proved.status.success(), "rt run in run_feed: {said}");
        folder.join("out/run_feed")
    })
}

fn started() -> Child {
    let mut command = Command::new(program());
    command.stdin(Stdio::piped()).stdout(Stdio::piped());
    command.spawn().expect("the program, which is there")
}

/// What the program writes of a log that is put into a pipe drop by drop, with a pause after each.
fn lines(log: &[u8], drop: usize, pause: Duration) -> String {
    let mut program = started();
    let mut input = program.stdin.take().expect("a pipe");
    let output = thread::scope(|scope| {
        scope.spawn(move || {
            for drop in log.chunks(drop) {
                // After a refusal the program ends, and nobody reads the rest.
                if input.write_all(drop).is_err() {
                    break;
                }
                thread::sleep(pause);
            }
        });
        program.wait_with_output().expect("its output")
    });
    assert!(output.status.success(), "{}", output.status);
    String::from_utf8(output.stdout).expect("text")
}

/// The reference's lines.
fn expected(log: &[u8]) -> String {
    let mut lines = Vec::new();
    feed::run(&mut &log[..], &mut lines).expect("a Vec takes all");
    String::from_utf8(lines).expect("text")
}

/// The same lines as the reference's.
fn same(log: &[u8], name: &str) {
    let lines = lines(log, log.len().max(1), Duration::ZERO);
    assert!(lines == expected(log), "{name}:\n{lines}");
}

#[test]
fn the_stored_run_is_the_example() {
    let log = example::log();
    assert!(log == include_bytes!("../../../crates/run_feed/stdin"));
    let stored = include_str!("../../../crates/run_feed/stdout");
    assert_eq!(stored, expected(&log));
}

#[test]
fn nothing() {
    assert_eq!(lines(&[], 1, Duration::ZERO), "E clean\n");
}

/// In the first record's header and data, in the second's, in a trailer, and around the blocks'
/// ends.
#[test]
fn cuts() {
    let log = example::log();
    let places = [
        1, 6, 7, 8, 1_006, 1_007, 1_008, 1_013, 1_014, 1_015, 32_767, 32_768, 32_769, 32_774,
        32_775, 32_776, 65_535, 65_536, 98_297, 98_298, 98_299, 98_303, 98_304, 98_305, 98_310,
        98_311, 98_312, 106_310,
    ];
    for place in places {
        same(&log[..place], &format!("cut at {place}"));
    }
}

#[test]
fn damaged_blocks() {
    let log = example::log();
    for place in [
        0, 6, 500, 1_011, 20_000, 32_772, 40_000, 70_000, 98_300, 98_308, 100_000,
    ] {
        let mut log = log.clone();
        log[place] ^= 1;
        same(&log, &format!("byte {place} changed"));
    }
    for block in 0..log.len() / BLOCK {
        for filler in [0, 0xA5] {
            let mut log = log.clone();
            log[block * BLOCK..(block + 1) * BLOCK].fill(filler);
            same(&log, &format!("block {block} full of {filler}"));
        }
    }
}

#[test]
fn random_logs() {
    let mut random = Random::new();
    for _ in 0..100 {
        let records = 1 + random.below(8);
        let mut log = make::written_log(&mut random, records);
        for _ in 0..random.below(4) {
            hurt(&mut random, &mut log);
        }
        same(&log, &random.to_string());
    }
}

/// A byte of a header or any other changed, a block of zeros, or a cut.
fn hurt(random: &mut Random, log: &mut Vec<u8>) {
    let place = random.below(log.len());
    let headers = make::headers(log);
    match random.below(8) {
        0 => log.truncate(place + 1),
        1 => {
            let end = log.len().min(place + BLOCK);
            log[place..end].fill(0);
        }
        2..=4 if !headers.is_empty() => {
            let header = make::pick(random, &headers);
            log[header + random.below(HEADER)] = random.next() as u8;
        }
        _ => log[place] ^= 1 << random.below(8),
    }
}

/// Every line of all blocks that a log may have, and then the refusal.
#[test]
fn a_byte_above_the_limit() {
    let log = vec![0; LONGEST_LOG + 1];
    let blocks: String = (0..LONGEST_LOG / BLOCK)
        .map(|block| format!("S {} {} 2\n", block * BLOCK, (block + 1) * BLOCK))
        .collect();
    assert!(lines(&log, 100_000, Duration::ZERO) == format!("{blocks}X 1\n"));
    assert!(lines(&log[1..], 100_000, Duration::ZERO) == format!("{blocks}E clean\n"));
}

/// A short read is not the end.
#[test]
fn in_drops() {
    let log = example::log();
    for drop in [5_000, 32_767, 32_769] {
        let pause = Duration::from_millis(5);
        assert_eq!(lines(&log, drop, pause), expected(&log), "{drop}");
    }
    let front = &log[..1_010];
    let pause = Duration::from_micros(100);
    assert_eq!(lines(front, 1, pause), "R 0 1007 1000\nE torn 1007\n");
}

/// A piece's lines are written before the next one comes.
#[test]
fn without_waiting_for_the_end() {
    let log = example::log();
    let mut program = started();
    let mut input = program.stdin.take().expect("a pipe");
    let mut output = BufReader::new(program.stdout.take().expect("a pipe")).lines();
    let mut line = || output.next().expect("a line").expect("text");
    input.write_all(&log[..BLOCK]).expect("a reader");
    assert_eq!(line(), "R 0 1007 1000");
    assert_eq!(line(), "S 1007 32768 7");
    input.write_all(&log[BLOCK..2 * BLOCK]).expect("a reader");
    assert_eq!(line(), "S 32768 65536 5");
    drop(input);
    assert_eq!(line(), "E clean");
    assert!(program.wait().expect("its end").success());
}
