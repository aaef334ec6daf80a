//! examples/mend_file.c, held to the reference.

use crate::files::{appended, longest, of_an_early_writer, printed, reading, run, said};
use crate::files::{set_length, some_bytes, with_a_dirty_trailer, with_memory, NO_MEMORY};
use crate::folder::{left_out, root, Folder, Way, C, CLANG, SANITIZED};
use crate::mended::mended;
use crate::refusal_text;
use reference::log::{BLOCK, LONGEST_LOG, LONGEST_RECORD};
use std::fs::{self, File};
use std::os::unix::fs::symlink;
use std::path::{Path, PathBuf};
use std::process::{Command, Output, Stdio};

/// With the faults of tests/c/faults.c.
const FAULTS: Way = "cc -std=c99 -Wall -Wextra -Werror \
     -DEXAMPLE=\"../../../../examples/mend_file.c\" \
     -Wl,--wrap=pwrite,--wrap=fsync,--wrap=ftruncate,--wrap=close,--wrap=unlink";

fn program(folder: &Folder, way: Way) -> PathBuf {
    folder.program(way, &root().join("examples/mend_file.c"))
}

fn mend(program: &Path, bad: &Path, new: &Path) -> Output {
    run(Command::new(program).arg(bad).arg(new), b"")
}

/// The lines that are printed when a file was mended into another.
fn lines(bad: &Path, new: &Path, length: usize, skipped: usize) -> String {
    let (bad, new) = (bad.display(), new.display());
    let tail = "with no empty start or torn tail counted";
    format!("written to {new}: {length} bytes\nskipped in {bad}: {skipped} bytes, {tail}\n")
}

/// The samples, the texts beside them, a sample that is cut, and nothing.
#[test]
fn a_file_is_mended_as_the_reference_mends_it() {
    let folder = Folder::new("mend");
    let (bad, new) = (folder.0.join("bad"), folder.0.join("new"));
    let samples = fs::read_dir(root().join("samples")).expect("the samples");
    let samples = samples.map(|entry| fs::read(entry.expect("an entry").path()).expect("a file"));
    let mut logs: Vec<Vec<u8>> = samples.collect();
    let sample = fs::read(root().join("samples/damaged.log")).expect("a sample");
    logs.extend([0, 6, 7, BLOCK - 1, BLOCK, 3 * BLOCK].map(|end| sample[..end].to_vec()));
    for way in folder.there(&[C, SANITIZED, CLANG]) {
        let program = program(&folder, way);
        for log in &logs {
            fs::write(&bad, log).expect("a file");
            let (expected, skipped) = mended(log, LONGEST_RECORD, &mut vec![0; LONGEST_RECORD]);
            let ran = mend(&program, &bad, &new);
            let says = lines(&bad, &new, expected.len(), skipped);
            assert_eq!((printed(&ran), said(&ran)), ((says, 0), String::new()));
            assert!(fs::read(&new).expect("the new file") == expected, "{way:?}");
            assert!(fs::read(&bad).expect("the bad file") == *log, "{way:?}");
            // It reads as whole.
            assert_eq!(reading(&expected).1, 0);
            fs::remove_file(&new).expect("the new file");
        }
    }
}

/// An empty start is left out, and not counted.
#[test]
fn an_empty_start_is_mended_without_a_loss() {
    let folder = Folder::new("mend-empty-start");
    let log = of_an_early_writer();
    let (bad, new) = (folder.file("bad", &log), folder.0.join("new"));
    let records = appended(Vec::new(), &some_bytes(32_754, 3));
    let records = appended(records, &some_bytes(1_000, 7));
    for way in folder.there(&[C]) {
        let ran = mend(&program(&folder, way), &bad, &new);
        assert_eq!(printed(&ran), (lines(&bad, &new, 33_775, 0), 0));
        assert!(fs::read(&new).expect("the new file") == records);
        fs::remove_file(&new).expect("the new file");
    }
}

/// A dirty trailer is left out, and counted.
#[test]
fn a_dirty_trailer_is_counted() {
    let folder = Folder::new("mend-dirty-trailer");
    let log = with_a_dirty_trailer();
    let (bad, new) = (folder.file("bad", &log), folder.0.join("new"));
    let mut clean = log;
    clean[32_765] = 0;
    for way in folder.there(&[C]) {
        let ran = mend(&program(&folder, way), &bad, &new);
        assert_eq!(printed(&ran), (lines(&bad, &new, 33_775, 6), 0));
        assert!(fs::read(&new).expect("the new file") == clean);
        fs::remove_file(&new).expect("the new file");
    }
}

/// To its last byte, where a record ends.
#[test]
fn a_journal_of_the_greatest_length_is_mended() {
    let folder = Folder::new("mend-longest");
    let ((bad, log), new) = (longest(&folder), folder.0.join("new"));
    for way in folder.there(&[C]) {
        let ran = mend(&program(&folder, way), &bad, &new);
        let says = lines(&bad, &new, BLOCK, LONGEST_LOG - BLOCK);
        assert_eq!(printed(&ran), (says, 0), "{}", said(&ran));
        assert!(fs::read(&new).expect("the new file") == log[LONGEST_LOG - BLOCK..]);
        fs::remove_file(&new).expect("the new file");
    }
}

/// With room for neither journal, and for one of them. Of one that is too long it is said that it is,
/// for which no memory is taken.
#[test]
fn with_too_little_memory_nothing_is_mended() {
    let folder = Folder::new("mend-memory");
    let (bad, new) = (folder.file("bad", ""), folder.0.join("new"));
    let too_long = refusal_text(1);
    for way in folder.there(&[C]) {
        let program = program(&folder, way);
        for (length, memory, says) in [
            (LONGEST_LOG, 512, NO_MEMORY),
            (LONGEST_LOG, 1_536, NO_MEMORY),
            (LONGEST_LOG + 1, 512, &too_long),
        ] {
            set_length(&bad, length);
            let ran = run(&mut with_memory(memory, &program, &[&bad, &new]), b"");
            assert_eq!(printed(&ran), (String::new(), 2), "{memory} MiB");
            assert!(said(&ran).contains(says), "{}", said(&ran));
            assert!(!new.exists());
        }
    }
}

#[test]
fn the_longest_records_are_mended() {
    let folder = Folder::new("mend-long");
    let record = some_bytes(LONGEST_RECORD, 3);
    let log = [1, 2, 3]
        .iter()
        .fold(Vec::new(), |log, _| appended(log, &record));
    let (bad, new) = (folder.file("bad", &log), folder.0.join("new"));
    for way in folder.there(&[C]) {
        let ran = mend(&program(&folder, way), &bad, &new);
        assert_eq!(printed(&ran), (lines(&bad, &new, log.len(), 0), 0));
        assert!(fs::read(&new).expect("the new file") == log);
        fs::remove_file(&new).expect("the new file");
    }
}

/// No file is made, and none that is there is changed.
#[test]
fn what_can_not_be_mended_makes_no_file() {
    let folder = Folder::new("mend-not");
    let bad = folder.file("bad", some_bytes(100, 3));
    let (new, none) = (folder.0.join("new"), folder.0.join("none"));
    let long = folder.file("long", "");
    set_length(&long, LONGEST_LOG + 1);
    let there = folder.file("there", "mine");
    symlink(&none, folder.0.join("link")).expect("a link");
    for way in folder.there(&[C, SANITIZED]) {
        let program = program(&folder, way);
        let fails = |bad: &Path, new: &Path, says: &str| {
            let ran = mend(&program, bad, new);
            assert_eq!(printed(&ran), (String::new(), 2));
            let says = format!("nothing was mended: {says}");
            assert!(said(&ran).contains(&says), "{}", said(&ran));
        };
        fails(&none, &new, "No such file");
        fails(&long, &new, &refusal_text(1));
        assert!(!new.exists());
        for new in [&there, &bad, &folder.0, &folder.0.join("link")] {
            fails(&bad, new, "File exists");
        }
        assert!(!none.exists());
        fails(&bad, &none.join("new"), "No such file");
        assert_eq!(fs::read(&there).expect("the file"), b"mine");
        assert_eq!(fs::read(&bad).expect("the file"), some_bytes(100, 3));
        for words in [&[][..], &[&bad], &[&bad, &new, &there]] {
            let ran = run(Command::new(&program).args(words), b"");
            assert_eq!(printed(&ran), (String::new(), 2));
            assert!(said(&ran).contains("usage"), "{}", said(&ran));
        }
        assert!(!new.exists());
    }
}

/// A folder, a pipe, and a file that has bytes and says that it has none.
#[test]
fn what_has_no_length_of_its_own_is_not_mended() {
    let folder = Folder::new("mend-no-length");
    let new = folder.0.join("new");
    for way in folder.there(&[C, SANITIZED]) {
        let program = program(&folder, way);
        for (bad, says) in [
            (&folder.0, "it is not a plain file"),
            (&PathBuf::from("/dev/stdin"), "it is not a plain file"),
            (
                &PathBuf::from("/proc/self/status"),
                "its length and its bytes differ",
            ),
        ] {
            let ran = mend(&program, bad, &new);
            assert_eq!(printed(&ran), (String::new(), 2));
            assert!(said(&ran).contains(says), "{}", said(&ran));
            assert!(!new.exists());
        }
    }
}

/// A new file that is written is kept, but not as if all were well.
#[test]
fn what_can_not_be_printed_was_not_said() {
    let folder = Folder::new("mend-said");
    let bad = root().join("samples/damaged.log");
    let new = folder.0.join("new");
    let Ok(full) = File::options().write(true).open("/dev/full") else {
        return left_out("/dev/full");
    };
    for way in folder.there(&[C]) {
        let mut command = Command::new(program(&folder, way));
        let full = full.try_clone().expect("the same file");
        let command = command.arg(&bad).arg(&new).stdout(full);
        let ran = command
            .stderr(Stdio::piped())
            .output()
            .expect("the program");
        assert_eq!(ran.status.code(), Some(2));
        assert!(said(&ran).contains("is written"), "{}", said(&ran));
        let log = fs::read(&bad).expect("a sample");
        let (expected, _) = mended(&log, LONGEST_RECORD, &mut vec![0; LONGEST_RECORD]);
        assert!(fs::read(&new).expect("the new file") == expected);
    }
}

/// Interrupted, short and failing writes, and a disk that does not take them.
#[test]
fn a_file_that_is_not_written_whole_is_removed() {
    let folder = Folder::new("mend-faults");
    let log = appended(Vec::new(), &some_bytes(40_000, 7));
    let (bad, new) = (folder.file("bad", &log), folder.0.join("new"));
    for way in folder.there(&[FAULTS]) {
        let source = root().join("rust/mellansko/tests/c/faults.c");
        let program = folder.program(way, &source);
        let run = |fault: &str| {
            let mut command = Command::new(&program);
            run(command.env("FAULT", fault).arg(&bad).arg(&new), b"")
        };
        let ran = run("");
        assert_eq!(printed(&ran), (lines(&bad, &new, log.len(), 0), 0));
        assert!(fs::read(&new).expect("the new file") == log);
        fs::remove_file(&new).expect("the new file");
        for fault in ["full", "zero", "fsync", "close"] {
            let ran = run(fault);
            assert_eq!(printed(&ran), (String::new(), 2), "{fault}");
            assert!(said(&ran).contains("nothing was mended"), "{}", said(&ran));
            assert!(!new.exists(), "{fault}");
            // Where that fails too, it is said.
            let ran = run(&format!("{fault} unlink"));
            assert_eq!(printed(&ran), (String::new(), 2), "{fault}");
            let says = "nor be removed: do not use it";
            assert!(said(&ran).contains(says), "{}", said(&ran));
            fs::remove_file(&new).expect("what is left of it");
        }
        assert!(fs::read(&bad).expect("the bad file") == log);
    }
}

/// The kernel's own refusal, in the middle of a write.
#[test]
fn a_file_that_may_not_grow_is_removed() {
    let folder = Folder::new("mend-limit");
    let log = appended(Vec::new(), &some_bytes(40_000, 7));
    let (bad, new) = (folder.file("bad", log), folder.0.join("new"));
    for way in folder.there(&[C]) {
        // 64 times 512 bytes.
        let limited = "ulimit -f 64 && exec \"$0\" \"$1\" \"$2\"";
        let mut shell = Command::new("sh");
        shell.args(["-c", limited]).arg(program(&folder, way));
        let ran = run(shell.arg(&bad).arg(&new), b"");
        if ran.status.success() || said(&ran).contains("ulimit") {
            left_out(&format!("a limit on a file's length: {}", said(&ran)));
            continue;
        }
        assert_eq!(printed(&ran), (String::new(), 2));
        assert!(said(&ran).contains("File too large"), "{}", said(&ran));
        assert!(!new.exists());
    }
}
