//! examples/read_file.c and examples/append_file.c, held to the reference.

use crate::folder::{left_out, root, Folder, Way, C, CLANG, SANITIZED};
use crate::{reason_text, refusal_text};
use reference::log::{append, fragment, next, Appended, Next, Tail};
use reference::log::{BLOCK, FIRST, FULL, HEADER, LAST, LONGEST_LOG, LONGEST_RECORD};
use std::fs::{self, File};
use std::io::{Seek as _, SeekFrom, Write as _};
use std::path::{Path, PathBuf};
use std::process::{Command, Output, Stdio};

/// With the faults of tests/c/faults.c.
const FAULTS: Way = "cc -std=c99 -Wall -Wextra -Werror \
     -DEXAMPLE=\"../../../../examples/append_file.c\" \
     -Wl,--wrap=pwrite,--wrap=fsync,--wrap=ftruncate,--wrap=close,--wrap=unlink";

/// The samples, the texts beside them, and nothing.
#[test]
fn a_file_is_read_as_the_reference_reads_it() {
    let folder = Folder::new("read");
    let samples = fs::read_dir(root().join("samples")).expect("the samples");
    let mut files: Vec<PathBuf> = samples
        .map(|entry| entry.expect("an entry").path())
        .collect();
    let logs = |file: &&PathBuf| file.extension().is_some_and(|end| end == "log");
    assert!(files.iter().filter(logs).count() >= 4, "{files:?}");
    files.push(folder.file("empty", ""));
    for way in folder.there(&[C, SANITIZED, CLANG]) {
        let program = folder.program(way, &root().join("examples/read_file.c"));
        for file in &files {
            let (lines, status) = reading(&fs::read(file).expect("a file"));
            let ran = run(Command::new(&program).arg(file), b"");
            assert_eq!(printed(&ran), (lines, status), "{way:?} {}", file.display());
            assert_eq!(ran.stderr, b"");
        }
    }
}

/// It is printed, and is no damage: the journal can be appended to. With an orphan after it there is.
#[test]
fn an_empty_start_is_no_damage() {
    let folder = Folder::new("empty-start");
    let file = folder.0.join("journal");
    for way in folder.there(&[C, SANITIZED, CLANG]) {
        let [append, read] = ["append_file", "read_file"]
            .map(|name| folder.program(way, &root().join(format!("examples/{name}.c"))));
        let reads_as = |expected: (String, i32)| {
            let ran = run(Command::new(&read).arg(&file), b"");
            assert_eq!((printed(&ran), said(&ran)), (expected, String::new()));
        };
        let log = of_an_early_writer();
        fs::write(&file, &log).expect("a file");
        reads_as((EARLY.into(), 0));
        let ran = run(Command::new(&append).arg(&file).arg("LW12"), b"");
        assert_eq!(printed(&ran), (String::new(), 0), "{}", said(&ran));
        let (before, _) = EARLY.split_once("clean").expect("a clean end");
        let record = "record 33775 to 33786: 4 bytes; fragments: 1, last at 33775";
        let after = format!("{record}\nclean end at 33786\n");
        reads_as((format!("{before}{after}"), 0));
        fs::write(&file, [log, fragment(LAST, b"")].concat()).expect("a file");
        let after = skipped(33_775, 33_782, 5) + "clean end at 33782\n";
        reads_as((format!("{before}{after}"), 1));
    }
}

/// It is printed, and is in doubt, with the record after it or cut.
#[test]
fn a_dirty_trailer_is_in_doubt() {
    let folder = Folder::new("dirty-trailer");
    let log = with_a_dirty_trailer();
    let (cut, _) = DIRTY.split_once("to 32768").expect("the trailer");
    let cut = format!("{cut}to 32766: {}\nclean end at 32766\n", reason_text(9));
    for way in folder.there(&[C, SANITIZED, CLANG]) {
        let read = folder.program(way, &root().join("examples/read_file.c"));
        for (log, says) in [(&log[..], DIRTY), (&log[..32_766], &cut)] {
            let file = folder.file("journal", log);
            let ran = run(Command::new(&read).arg(file), b"");
            assert_eq!(printed(&ran), (says.into(), 1), "{way:?}");
            assert_eq!(reading(log), (says.into(), 1));
        }
    }
}

#[test]
fn a_file_that_can_not_be_read_is_no_whole_journal() {
    let folder = Folder::new("unread");
    let long = folder.file("long", "");
    set_length(&long, LONGEST_LOG + 1);
    for way in folder.there(&[C, SANITIZED]) {
        let program = folder.program(way, &root().join("examples/read_file.c"));
        let fails = |file: &Path, says: &str| {
            let ran = run(Command::new(&program).arg(file), b"some bytes");
            assert_eq!(printed(&ran), (String::new(), 2));
            assert!(said(&ran).contains(says), "{}", said(&ran));
        };
        fails(&folder.0.join("none"), "No such file");
        fails(&folder.0, "not a plain file");
        fails(Path::new("/dev/stdin"), "not a plain file");
        fails(&long, &refusal_text(1));
        // A file that has bytes, and says that it has none.
        fails(Path::new("/proc/self/status"), "differ");
        assert_eq!(run(&mut Command::new(&program), b"").status.code(), Some(2));
        // What can't be printed was not said.
        if let Ok(full) = File::options().write(true).open("/dev/full") {
            let mut command = Command::new(&program);
            let command = command.arg(root().join("samples/damaged.log"));
            let status = command.stdout(full).stderr(Stdio::null()).status();
            assert_eq!(status.expect("the program").code(), Some(2));
        }
    }
}

/// To its last byte. With too little memory for it that is said; but of one that is a byte longer it
/// is said that it is too long, for which no memory is taken.
#[test]
fn a_file_of_the_greatest_length_is_read() {
    let folder = Folder::new("longest");
    let (file, log) = longest(&folder);
    for way in folder.there(&[C]) {
        let program = folder.program(way, &root().join("examples/read_file.c"));
        set_length(&file, LONGEST_LOG);
        let ran = run(Command::new(&program).arg(&file), b"");
        assert!(printed(&ran) == reading(&log), "{}", said(&ran));
        for (length, says) in [
            (LONGEST_LOG, NO_MEMORY),
            (LONGEST_LOG + 1, &refusal_text(1)),
        ] {
            set_length(&file, length);
            let ran = run(&mut with_memory(512, &program, &[&file]), b"");
            assert_eq!(printed(&ran), (String::new(), 2));
            assert!(said(&ran).contains(says), "{}", said(&ran));
        }
    }
}

/// A file of the greatest length, and its bytes: zeros, of which neither takes up room, and in the
/// last block a record that ends with the log.
pub fn longest(folder: &Folder) -> (PathBuf, Vec<u8>) {
    let (file, mut log) = (folder.file("longest", ""), vec![0; LONGEST_LOG]);
    let last = fragment(FULL, &some_bytes(BLOCK - HEADER, 3));
    let start = LONGEST_LOG - BLOCK;
    log[start..].copy_from_slice(&last);
    let mut written = File::options().write(true).open(&file).expect("the file");
    let place = written.seek(SeekFrom::Start(start as u64));
    assert_eq!(place.expect("a place"), start as u64);
    written.write_all(&last).expect("the last block");
    (file, log)
}

/// What is said where there is not enough of it.
pub const NO_MEMORY: &str = "Cannot allocate memory";

/// A program that has so many MiB of memory at most.
pub fn with_memory(most: usize, program: &Path, words: &[&Path]) -> Command {
    let mut shell = Command::new("sh");
    let limited = format!("ulimit -v {} && exec \"$0\" \"$@\"", most << 10);
    shell.args(["-c", &limited]).arg(program).args(words);
    shell
}

/// At every place around a block's end, and of a file that has bytes of any kind: they are not read.
#[test]
fn a_record_is_appended_as_the_reference_appends_it() {
    let folder = Folder::new("append");
    let file = folder.0.join("journal");
    for way in folder.there(&[SANITIZED]) {
        let program = folder.program(way, &root().join("examples/append_file.c"));
        let others = [0, 1, 7, 20, 65_529, 65_535, 65_536, 100_000, 1_000_000];
        for length in others.into_iter().chain(32_760..=32_775) {
            // The longest at two marks: where no trailer has to be filled up, and where one has.
            let longest = [0, 32_762].contains(&length).then_some(LONGEST_RECORD);
            for record in [0, 1, 32_761, 65_523, 262_144].into_iter().chain(longest) {
                let record = some_bytes(record, 7);
                let old = some_bytes(length, 31);
                fs::write(&file, &old).expect("a file");
                let ran = run(Command::new(&program).arg(&file), &record);
                assert_eq!((printed(&ran).1, said(&ran)), (0, String::new()));
                let expected = appended(old, &record);
                let found = fs::read(&file).expect("the file");
                assert!(found == expected, "{length} and {}", record.len());
            }
        }
    }
}

/// From nothing, record after record, some of them from the command line.
#[test]
fn what_is_appended_reads_back() {
    let folder = Folder::new("appends");
    let file = folder.file("journal", "");
    for way in folder.there(&[C, CLANG]) {
        let [append, read] = ["append_file", "read_file"]
            .map(|name| folder.program(way, &root().join(format!("examples/{name}.c"))));
        let mut expected = Vec::new();
        fs::write(&file, "").expect("the file");
        for length in [0, 5, 32_000, 737, 12, 0, LONGEST_RECORD, 1, 40_000, 100] {
            let record = some_bytes(length, 3);
            run(Command::new(&append).arg(&file), &record);
            let ran = run(Command::new(&append).arg(&file).arg("LW10-1 0.9137"), b"no");
            assert_eq!(printed(&ran), (String::new(), 0), "{}", said(&ran));
            expected = appended(appended(expected, &record), b"LW10-1 0.9137");
            assert!(fs::read(&file).expect("the file") == expected, "{length}");
        }
        let ran = run(Command::new(&read).arg(&file), b"");
        assert_eq!(printed(&ran), reading(&expected));
        assert_eq!(printed(&ran).1, 0);
    }
}

#[test]
fn what_is_refused_leaves_the_file_as_it_was() {
    let folder = Folder::new("refused");
    let file = folder.file("journal", some_bytes(100, 3));
    for way in folder.there(&[C, SANITIZED]) {
        let program = folder.program(way, &root().join("examples/append_file.c"));
        let refused = |file: &Path, record: &[u8], says: &str| {
            let before = fs::metadata(file).ok().map(|file| file.len());
            let ran = run(Command::new(&program).arg(file), record);
            assert_eq!(printed(&ran), (String::new(), 2));
            assert!(said(&ran).contains(says), "{}", said(&ran));
            assert_eq!(fs::metadata(file).ok().map(|file| file.len()), before);
        };
        let long = some_bytes(LONGEST_RECORD + 1, 3);
        refused(&file, &long, &refusal_text(3));
        refused(&folder.0.join("none"), b"x", "No such file");
        refused(&folder.0, b"x", "Is a directory");
        refused(Path::new("/dev/null"), b"x", "plain file");
        let lock = File::open(&file).expect("the file");
        lock.lock().expect("a lock");
        refused(&file, b"x", "locked");
        drop(lock);
        assert_eq!(fs::read(&file).expect("the file"), some_bytes(100, 3));
        // Up to a journal's longest, and no further.
        let full = folder.file("full", "");
        set_length(&full, LONGEST_LOG - 8);
        refused(&full, b"xy", "no room");
        let ran = run(Command::new(&program).arg(&full), b"x");
        assert_eq!(printed(&ran).1, 0, "{}", said(&ran));
        assert_eq!(
            fs::metadata(&full).expect("the file").len(),
            LONGEST_LOG as u64
        );
        refused(&full, b"", "no room");
        set_length(&full, LONGEST_LOG + 32_768);
        refused(&full, b"", "no room");
    }
}

/// Interrupted, short and failing writes, and a disk that does not take them.
#[test]
fn a_write_that_fails_is_cut_off_again() {
    let folder = Folder::new("faults");
    let file = folder.0.join("journal");
    let old = some_bytes(32_700, 3);
    let record = some_bytes(10_000, 7);
    for way in folder.there(&[FAULTS]) {
        let source = root().join("rust/mellansko/tests/c/faults.c");
        let program = folder.program(way, &source);
        let run = |fault: &str| {
            fs::write(&file, &old).expect("a file");
            let ran = run(
                Command::new(&program).env("FAULT", fault).arg(&file),
                &record,
            );
            (
                printed(&ran).1,
                said(&ran),
                fs::read(&file).expect("the file"),
            )
        };
        assert!(run("") == (0, String::new(), appended(old.clone(), &record)));
        for fault in ["full", "zero", "fsync"] {
            let (status, said, found) = run(fault);
            assert_eq!((status, found.len()), (2, old.len()), "{fault}: {said}");
            assert!(said.contains("nothing was appended"), "{fault}: {said}");
            assert!(found == old, "{fault}");
        }
        for fault in ["full cut", "zero cut", "fsync cut"] {
            let (status, said, found) = run(fault);
            assert_eq!(
                (status, found.len() > old.len()),
                (2, true),
                "{fault}: {said}"
            );
            let says = "nor be cut back to its 32700 bytes";
            assert!(said.contains(says), "{fault}: {said}");
        }
    }
}

/// The kernel's own refusal, in the middle of a write.
#[test]
fn a_file_that_may_not_grow_is_cut_back() {
    let folder = Folder::new("limit");
    let old = some_bytes(32_000, 3);
    let file = folder.file("journal", &old);
    for way in folder.there(&[C]) {
        let program = folder.program(way, &root().join("examples/append_file.c"));
        // 64 times 512 bytes.
        let limited = "ulimit -f 64 && exec \"$0\" \"$1\"";
        let mut shell = Command::new("sh");
        shell.args(["-c", limited]).arg(program).arg(&file);
        let ran = run(&mut shell, &some_bytes(5_000, 7));
        if !said(&ran).contains("File too large") {
            left_out(&format!("a limit on a file's length: {}", said(&ran)));
            continue;
        }
        assert_eq!(ran.status.code(), Some(2));
        assert!(fs::read(&file).expect("the file") == old);
    }
}

/// What read_file and feed_stdin print of a log, and their status, with the reference's calls.
pub fn reading(log: &[u8]) -> (String, i32) {
    let mut lines = String::new();
    let mut buffer = vec![0; LONGEST_RECORD];
    let (mut place, mut status) = (0, 0);
    loop {
        let answer = next(log, place, LONGEST_RECORD, &mut buffer);
        place = answer.place_after(log);
        match answer {
            Next::Record {
                start,
                end,
                length,
                fragments,
                last_header,
                ..
            } => {
                let stored = format!("fragments: {fragments}, last at {last_header}");
                lines += &format!("record {start} to {end}: {length} bytes; {stored}\n");
            }
            Next::Skip { start, end, reason } => {
                lines += &skipped(start, end, reason);
                // Nothing is in doubt there (docs/FORMAT.md, §13.5).
                status = if reason == 8 { status } else { 1 };
            }
            Next::End(Tail::Clean) => return (lines + &format!("clean end at {place}\n"), status),
            Next::End(Tail::Torn(start)) => {
                return (lines + &format!("torn from {start} to {}\n", log.len()), 1);
            }
            Next::Refused { number, .. } => panic!("refused with {number}"),
        }
    }
}

/// The line of a range that is skipped.
pub fn skipped(start: usize, end: usize, reason: u8) -> String {
    let word = if reason == 8 { "skipped" } else { "in doubt" };
    format!("{word} {start} to {end}: {}\n", reason_text(reason))
}

/// A journal of an early writer, of which a block has 7 bytes left: there a record is begun without
/// bytes, and then begun afresh (docs/FORMAT.md, §13.7).
pub fn of_an_early_writer() -> Vec<u8> {
    let mut log = appended(Vec::new(), &some_bytes(32_754, 3));
    log.extend(fragment(FIRST, b""));
    appended(log, &some_bytes(1_000, 7))
}

/// What read_file and feed_stdin print of it.
pub const EARLY: &str = "record 0 to 32761: 32754 bytes; fragments: 1, last at 0\n\
     skipped 32761 to 32768: an empty start: a record begun with no bytes, and then begun again\n\
     record 32768 to 33775: 1000 bytes; fragments: 1, last at 32768\n\
     clean end at 33775\n";

/// A journal with a dirty trailer between two records (docs/FORMAT.md, §14.7).
pub fn with_a_dirty_trailer() -> Vec<u8> {
    let mut log = appended(Vec::new(), &some_bytes(32_755, 3));
    log = appended(log, &some_bytes(1_000, 7));
    assert_eq!(log[32_762..32_768], [0; 6]);
    log[32_765] = 1;
    log
}

/// What read_file and feed_stdin print of it, with status 1.
pub const DIRTY: &str = "record 0 to 32762: 32755 bytes; fragments: 1, last at 0\n\
     in doubt 32762 to 32768: the bytes that fill up a block are not all zero\n\
     record 32768 to 33775: 1000 bytes; fragments: 1, last at 32768\n\
     clean end at 33775\n";

pub fn appended(mut log: Vec<u8>, record: &[u8]) -> Vec<u8> {
    let mark = log.len();
    log.resize(mark + record.len() + 1_000, 0);
    let Appended::Mark(end) = append(&mut log, mark, record) else {
        panic!("no room");
    };
    log.truncate(end);
    log
}

/// Bytes that do not repeat from block to block.
pub fn some_bytes(length: usize, step: usize) -> Vec<u8> {
    (0..length).map(|i| (i * step % 251) as u8).collect()
}

pub fn set_length(path: &Path, length: usize) {
    let file = File::options().write(true).open(path).expect("the file");
    file.set_len(length as u64).expect("a length");
}

/// Runs it with these bytes on standard input.
pub fn run(command: &mut Command, input: &[u8]) -> Output {
    let piped = command.stdin(Stdio::piped()).stdout(Stdio::piped());
    let mut child = piped.stderr(Stdio::piped()).spawn().expect("the program");
    let mut pipe = child.stdin.take().expect("standard input");
    // It may end without having read all of it.
    let _ = pipe.write_all(input);
    drop(pipe);
    child.wait_with_output().expect("the program")
}

/// What it printed, and its exit status.
pub fn printed(ran: &Output) -> (String, i32) {
    let text = String::from_utf8_lossy(&ran.stdout).into_owned();
    (text, ran.status.code().expect("a status, and no signal"))
}

pub fn said(ran: &Output) -> String {
    String::from_utf8_lossy(&ran.stderr).into_owned()
}
