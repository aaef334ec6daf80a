//! examples/feed_stdin.c, held to the reference, over files and over a pipe that pauses.

use crate::files::{longest, printed, reading, run, said, set_length};
use crate::files::{of_an_early_writer, with_a_dirty_trailer, DIRTY, EARLY};
use crate::folder::{root, Folder, C, CLANG, SANITIZED};
use crate::refusal_text;
use reference::log::{fragment, BLOCK, FIRST, FULL, LAST, LONGEST_LOG};
use std::fs::{self, File};
use std::io::{BufRead as _, BufReader, Write as _};
use std::path::Path;
use std::process::{ChildStdin, Command, Output, Stdio};
use std::sync::mpsc::{self, Receiver};
use std::thread;
use std::time::Duration;

/// The samples, the texts beside them, nothing, the first bytes of a sample, an empty start, and a
/// dirty trailer.
#[test]
fn a_log_is_read_as_the_reference_reads_it() {
    let folder = Folder::new("feed");
    let samples = fs::read_dir(root().join("samples")).expect("the samples");
    let samples = samples.map(|entry| fs::read(entry.expect("an entry").path()).expect("a file"));
    let mut logs: Vec<Vec<u8>> = samples.collect();
    let torn = fs::read(root().join("samples/damaged.log")).expect("a sample");
    logs.extend([0, 1, 6, 7, 4_096, BLOCK - 1, BLOCK, BLOCK + 5].map(|end| torn[..end].to_vec()));
    for way in folder.there(&[C, SANITIZED, CLANG]) {
        let program = folder.program(way, &root().join("examples/feed_stdin.c"));
        for log in &logs {
            let ran = run(&mut Command::new(&program), log);
            assert_eq!(printed(&ran), reading(log), "{way:?} {}", log.len());
            assert_eq!(ran.stderr, b"");
        }
        let ran = run(&mut Command::new(&program), &of_an_early_writer());
        assert_eq!(printed(&ran), (EARLY.into(), 0), "{way:?}");
        let ran = run(&mut Command::new(&program), &with_a_dirty_trailer());
        assert_eq!(printed(&ran), (DIRTY.into(), 1), "{way:?}");
    }
}

/// Every line is there before the next byte is written.
#[test]
fn each_answer_is_printed_when_it_is_certain() {
    let folder = Folder::new("pauses");
    let log = [
        fragment(FULL, b"LW10-1 0.9137"),
        fragment(FIRST, b"LW11"),
        fragment(LAST, b" 0.8412"),
        fragment(FIRST, b""),
        fragment(FIRST, b"LW"),
        vec![0; 8],
    ]
    .concat();
    // How many bytes, and what is then printed.
    let steps = [
        (20, "record 0 to 20: 13 bytes; fragments: 1, last at 0"),
        (45, "record 20 to 45: 11 bytes; fragments: 2, last at 31"),
        (
            61,
            "skipped 45 to 52: an empty start: a record begun with no bytes, and then begun again",
        ),
        // The seventh byte of a header that is blank.
        (
            68,
            "in doubt 52 to 61: a record that breaks off before its last piece",
        ),
    ];
    for way in folder.there(&[C]) {
        let program = folder.program(way, &root().join("examples/feed_stdin.c"));
        let (mut pipe, lines) = started(&program);
        let mut came = 0;
        for (until, line) in steps {
            let (all_but_one, last) = log[came..until].split_at(until - came - 1);
            pipe.write_all(all_but_one).expect("a pipe");
            let early = lines.recv_timeout(Duration::from_millis(100));
            assert!(early.is_err(), "{early:?} before {until} bytes have come");
            pipe.write_all(last).expect("a pipe");
            let came_out = lines.recv_timeout(Duration::from_secs(20));
            assert_eq!(came_out.as_deref(), Ok(line), "after {until} bytes");
            came = until;
        }
        pipe.write_all(&log[came..]).expect("a pipe");
        drop(pipe);
        let end: Vec<String> = lines.iter().collect();
        let all = reading(&log).0;
        assert_eq!(end, all.lines().skip(steps.len()).collect::<Vec<_>>());
    }
}

/// A byte that comes alone, so that later pieces run across the ends of blocks.
#[test]
fn pieces_that_a_block_has_no_room_for_are_taken_bit_by_bit() {
    let folder = Folder::new("across");
    let log = fs::read(root().join("samples/damaged.log")).expect("a sample");
    for way in folder.there(&[C]) {
        let program = folder.program(way, &root().join("examples/feed_stdin.c"));
        let (mut pipe, lines) = started(&program);
        pipe.write_all(&log[..1]).expect("a pipe");
        thread::sleep(Duration::from_millis(200));
        pipe.write_all(&log[1..]).expect("a pipe");
        drop(pipe);
        let lines: Vec<String> = lines.iter().collect();
        assert_eq!(lines, reading(&log).0.lines().collect::<Vec<_>>());
    }
}

/// A program, what it reads, and the lines that it prints.
fn started(program: &Path) -> (ChildStdin, Receiver<String>) {
    let mut command = Command::new(program);
    let piped = command.stdin(Stdio::piped()).stdout(Stdio::piped());
    let mut child = piped.spawn().expect("the program");
    let pipe = child.stdin.take().expect("standard input");
    let printed = child.stdout.take().expect("standard output");
    let (send, lines) = mpsc::channel();
    thread::spawn(move || {
        for line in BufReader::new(printed).lines() {
            // Nobody listens once the test has failed.
            let _ = send.send(line.expect("a line"));
        }
        child.wait().expect("its end");
    });
    (pipe, lines)
}

#[test]
fn what_can_not_be_read_is_no_whole_journal() {
    let folder = Folder::new("unfed");
    for way in folder.there(&[C, SANITIZED]) {
        let program = folder.program(way, &root().join("examples/feed_stdin.c"));
        let ran = fed(&program, &folder.0);
        assert_eq!(printed(&ran), (String::new(), 2));
        assert!(said(&ran).contains("Is a directory"), "{}", said(&ran));
        // What can't be printed was not said.
        if let Ok(full) = File::options().write(true).open("/dev/full") {
            let mut command = Command::new(&program);
            let quiet = command.stdin(Stdio::null()).stderr(Stdio::null());
            let status = quiet.stdout(full).status().expect("the program");
            assert_eq!(status.code(), Some(2));
        }
    }
}

/// To its last byte. With a byte more no end is printed, and all that came before it is.
#[test]
fn a_log_of_the_greatest_length_is_read() {
    let folder = Folder::new("longest-fed");
    let (file, log) = longest(&folder);
    for way in folder.there(&[C]) {
        let program = folder.program(way, &root().join("examples/feed_stdin.c"));
        let (lines, status) = reading(&log);
        let ran = fed(&program, &file);
        assert!(printed(&ran) == (lines.clone(), status), "{}", said(&ran));
        set_length(&file, LONGEST_LOG + 1);
        let ran = fed(&program, &file);
        let (before, _) = lines.split_once("clean end").expect("a clean end");
        assert!(printed(&ran) == (before.into(), 2), "{}", said(&ran));
        assert!(said(&ran).contains(&refusal_text(1)), "{}", said(&ran));
    }
}

/// What a program makes of a file on its standard input.
fn fed(program: &Path, input: &Path) -> Output {
    let input = File::open(input).expect("a file");
    let mut command = Command::new(program);
    command.stdin(input).output().expect("the program")
}
