//! `mellansko dump --follow`: a file that grows, shrinks, or is replaced.

#[macro_use]
mod common;

use common::damage::mixed_log;
use common::expect::{blank_blocks, certain, written};
use common::files::{in_advice, Folder};
use common::live::{first_line, Live, SIGINT, SIGTERM};
use common::{finish, tool, Ran};
use reference::log::{fragment, BLOCK, FIRST, FULL, LAST, LONGEST_LOG};
use std::fs::{self, File, OpenOptions};
use std::io::Write;
use std::path::Path;
use std::process::{Command, Stdio};
use std::time::{Duration, Instant};

fn follow(file: &Path) -> Live {
    Live::run(tool().args(["dump", "--follow"]).arg(file))
}

fn grow(file: &Path, bytes: &[u8]) {
    let file = OpenOptions::new().append(true).open(file);
    file.expect("the file").write_all(bytes).expect("room");
}

#[test]
fn a_line_comes_with_the_last_byte_that_it_takes_and_no_end() {
    let folder = Folder::new("follow-drops");
    let file = folder.file("log", b"");
    let parts = [
        fragment(LAST, b""),
        fragment(FIRST, b"L"),
        fragment(LAST, b"W"),
        fragment(FULL, b"")[..6].to_vec(),
    ];
    let begun = Instant::now();
    let mut live = follow(&file);
    live.in_drops(&parts.concat(), |_, byte| grow(&file, byte));
    assert!(begun.elapsed() < Duration::from_secs(15));
    assert_eq!(live.killed(SIGTERM), "");
}

/// All that is certain at first, then the rest of a record that was being written, and what is bad
/// once its block has come.
#[test]
fn it_begins_with_what_is_there_and_goes_on() {
    let folder = Folder::new("follow-on");
    let mut log = mixed_log();
    log.extend([4; 1]);
    for there in [1_000, 2 * BLOCK - 1, 3 * BLOCK] {
        let file = folder.file("log", &log[..there]);
        let mut live = follow(&file);
        live.has_written(&certain(&log[..there], 4_194_304));
        live.is_quiet();
        grow(&file, &log[there..]);
        live.has_written(&certain(&log, 4_194_304));
        live.is_quiet();
        assert_eq!(live.killed(SIGINT), "");
    }
}

#[test]
fn it_takes_a_limit() {
    let folder = Folder::new("follow-limit");
    let log = written(&[[1; 10], [2; 10]]);
    let file = folder.file("log", &log[..17]);
    let mut live = Live::run(tool().args(["dump", "--limit=9", "--follow"]).arg(&file));
    live.has_written("S 0 17 7\n");
    grow(&file, &log[17..]);
    live.has_written("S 0 17 7\nS 17 34 7\n");
    assert_eq!(live.killed(SIGTERM), "");
    let ran = run!("dump", "--follow", "--limit", "4194305", &file);
    assert_eq!(ran.text(), "X 5\n");
    ran.complained(2, &["log", "4 194 304", "refusal 5"]);
}

/// Follows a file until something is done to it, and gives what is said then.
fn until(folder: &Folder, done: impl FnOnce(&Path)) -> Ran {
    let log = written(&[&b"1"[..], b"22"]);
    let file = folder.file("race.log", &log[..10]);
    let mut live = follow(&file);
    live.has_written("R 0 8 1\n");
    done(&file);
    let ran = live.ended();
    assert!(ran.text().starts_with("R 0 8 1\n"));
    assert!(!ran.text().contains(['E', 'X']), "{}", ran.text());
    ran.complained(2, &["race.log", "could not be followed any further"]);
    ran
}

fn advises_to_begin_again(ran: &Ran, folder: &Folder) {
    let file = in_advice(&folder.join("race.log"));
    let again = format!("mellansko dump --follow {file}");
    ran.warned(&["no longer be those of the file", &again]);
}

#[test]
fn a_file_that_gets_shorter_is_told_and_ends_it() {
    let folder = Folder::new("follow-shorter");
    for length in [0, 9] {
        let ran = until(&folder, |file| {
            let file = OpenOptions::new().write(true).open(file);
            file.expect("the file").set_len(length).expect("a length");
        });
        ran.warned(&["shorter than the 10 bytes that were read of it"]);
        advises_to_begin_again(&ran, &folder);
        assert_eq!(ran.text(), "R 0 8 1\n");
    }
}

/// However fast it grows again.
#[test]
fn a_file_that_is_begun_anew_is_told_and_ends_it() {
    let folder = Folder::new("follow-anew");
    let ran = until(&folder, |file| {
        fs::write(file, written(&[&b"333"[..], b"4444"])).expect("the file");
    });
    advises_to_begin_again(&ran, &folder);
    assert_eq!(ran.text(), "R 0 8 1\n");
}

/// Nothing shows by the length: the last bytes that were read are others.
#[test]
fn what_was_read_and_is_changed_when_more_comes_is_told_and_ends_it() {
    let folder = Folder::new("follow-changed");
    let ran = until(&folder, |file| {
        let mut other = written(&[&b"1"[..], b"22"]);
        other[9] ^= 1;
        let same = OpenOptions::new().write(true).open(file);
        same.expect("the file").write_all(&other).expect("room");
    });
    ran.warned(&["what was read of it has been changed"]);
    advises_to_begin_again(&ran, &folder);
    assert_eq!(ran.text(), "R 0 8 1\n");
}

#[test]
fn a_file_that_is_replaced_is_told_after_all_that_it_had() {
    let folder = Folder::new("follow-replaced");
    let ran = until(&folder, |file| {
        let mut old = OpenOptions::new().append(true).open(file).expect("a file");
        fs::rename(folder.file("new", b"new"), file).expect("another file");
        old.write_all(&written(&[&b"1"[..], b"22"])[10..])
            .expect("room");
    });
    ran.warned(&["another file has its name by now"]);
    advises_to_begin_again(&ran, &folder);
    assert_eq!(ran.text(), "R 0 8 1\nR 8 17 2\n");
}

#[test]
fn a_file_that_is_removed_is_told() {
    let folder = Folder::new("follow-removed");
    let ran = until(&folder, |file| fs::remove_file(file).expect("the file"));
    ran.warned(&["no file has its name any more"]);
}

#[test]
fn a_file_that_gets_too_long_is_refused_after_what_was_certain() {
    let folder = Folder::new("follow-long");
    let file = folder.file("zeros", b"");
    let zeros = File::options().write(true).open(&file).expect("the file");
    zeros.set_len(LONGEST_LOG as u64).expect("a length");
    let mut live = follow(&file);
    let lines = blank_blocks(0..LONGEST_LOG / BLOCK);
    live.has_written(&lines);
    live.is_quiet();
    grow(&file, b"1");
    let ran = live.ended();
    assert!(ran.text() == lines + "X 1\n");
    ran.complained(
        2,
        &["zeros", "longer than 1 073 741 824 bytes", "refusal 1"],
    );
    ran.warned(&["of its beginning", "nothing after it was judged"]);

    // And one that is too long at first, at first.
    let ran = run!("dump", "--follow", &file);
    assert_eq!(ran.text(), "X 1\n");
    ran.complained(2, &["zeros", "refusal 1", "Nothing of it was judged"]);
}

/// Also while there is nothing to write.
#[test]
fn a_closed_output_ends_it_without_a_word() {
    let folder = Folder::new("follow-closed");
    let file = folder.file("log", &written(&[b"1"]));
    let mut command = tool();
    command.args(["dump", "--follow"]).arg(&file);
    command.stdout(Stdio::piped()).stderr(Stdio::piped());
    let mut child = command.spawn().expect("the tool");
    assert_eq!(first_line(&mut child), "R 0 8 1\n");
    let ran = finish(child, Vec::new());
    assert_eq!((ran.status, ran.err.as_str()), (Some(2), ""));
}

#[test]
fn what_can_not_be_followed_is_named_with_the_reason() {
    let folder = Folder::new("follow-no-file");
    let read = "could not be read";
    run!("dump", "--follow", folder.join("missing")).failed(2, &["missing", read, "no such file"]);
    run!("dump", "--follow", &*folder).failed(2, &["follow-no-file", read, "folder"]);
    let ran = run!("dump", "--follow", "/dev/null");
    ran.failed(
        2,
        &["/dev/null", "not a plain file", "mellansko dump /dev/null"],
    );
    // Nor is a pipe waited for that nobody writes to.
    let fifo = folder.join("fifo");
    assert!(Command::new("mkfifo")
        .arg(&fifo)
        .status()
        .expect("mkfifo")
        .success());
    run!("dump", "--follow", &fifo).failed(2, &["fifo", "not a plain file"]);
}
