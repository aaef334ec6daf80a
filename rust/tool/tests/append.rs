//! `mellansko append`: a record at the end of a journal, or nothing at all.

#[macro_use]
mod common;

use common::damage::{mixed_log, small_logs};
use common::expect::{add, count, grouped, written, Found};
use common::files::{as_nobody, in_advice, left_out, Folder};
use common::random::Random;
use common::report::check_verdict;
use common::{fed, finish, tool, Ran};
use std::fs::{self, File, OpenOptions};
use std::io::pipe;
use std::os::unix::fs::{symlink, PermissionsExt};
use std::path::Path;
use std::process::{Command, Stdio};
use std::thread;
use std::time::Duration;

fn append(file: &Path, record: &[u8]) -> Ran {
    feed!(record; "append", file)
}

fn append_new(file: &Path, record: &[u8]) -> Ran {
    feed!(record; "append", "--new", file)
}

fn bytes_of(file: &Path) -> Vec<u8> {
    fs::read(file).expect("the journal")
}

/// Holds what append said to where the record stands in the log.
fn check_said(ran: &Ran, log: &[u8]) {
    let line = ran.done().lines()[0];
    let records = Found::in_log(log).records;
    let (range, bytes) = &records[records.len() - 1];
    for said in [
        format!("record {} ", grouped(records.len())),
        count(bytes.len(), "byte"),
        format!(" {} to {}", grouped(range.start), grouped(range.end)),
    ] {
        assert!(line.contains(&said), "{said:?} is not in: {line}");
    }
}

#[test]
fn a_journal_grows_as_the_reference_writes_it() {
    let mut random = Random::new();
    println!("{random}");
    let folder = Folder::new("append-grow");
    let file = folder.join("log");
    let mut log = Vec::new();
    for (i, length) in [5, 0, 1_000, 97_270, 8_000, 0, 4_194_304, 1]
        .into_iter()
        .enumerate()
    {
        let record = random.bytes(length);
        add(&mut log, &record);
        let ran = match i {
            0 => append_new(&file, &record),
            _ => append(&file, &record),
        };
        check_said(&ran, &log);
        assert!(bytes_of(&file) == log, "record {i}");
    }
    assert_eq!(folder.names(), ["log"]);
}

#[test]
fn records_at_a_blocks_edge_are_as_the_reference_writes_them() {
    let folder = Folder::new("append-edges");
    let file = folder.join("log");
    for left in 0..=9 {
        let base = written(&[vec![1; 32_761 - left]]);
        for length in [0, 1, 2, 3, 32_761, 32_762, 70_000] {
            fs::write(&file, &base).expect("a file");
            let record = vec![2; length];
            let mut log = base.clone();
            add(&mut log, &record);
            let ran = append(&file, &record);
            assert!(bytes_of(&file) == log, "{left} left, {length} bytes");
            check_said(&ran, &log);
        }
    }
}

#[test]
fn an_empty_file_is_a_journal_and_an_empty_input_a_record() {
    let folder = Folder::new("append-empty");
    let file = folder.file("log", b"");
    append(&file, b"").done();
    assert_eq!(bytes_of(&file), written(&[b""]));
    let new = folder.join("new");
    append_new(&new, b"").done();
    assert_eq!(bytes_of(&new), written(&[b""]));
}

#[test]
fn a_record_of_4_194_304_bytes_is_taken_and_a_longer_one_refused() {
    let folder = Folder::new("append-longest");
    let before = written(&[b"times"]);
    let file = folder.file("log", &before);
    append(&file, &vec![7; 4_194_305])
        .failed(2, &["log", "nothing was appended", "4 194 304", "3"]);
    append(&file, &vec![7; 5_000_000]).failed(2, &["4 194 304", "refusal 3"]);
    assert_eq!(bytes_of(&file), before);
    let new = folder.join("new");
    append_new(&new, &vec![7; 4_194_305]).failed(2, &["new", "refusal 3"]);
    assert!(!new.exists());
    append(&file, &vec![7; 4_194_304]).done();
    let mut log = before;
    add(&mut log, &vec![7; 4_194_304]);
    assert!(bytes_of(&file) == log);
}

#[test]
fn a_journal_in_doubt_is_refused_and_left_as_it_is() {
    let mut random = Random::new();
    println!("{random}");
    let folder = Folder::new("append-doubt");
    let mut logs = small_logs(&mut random);
    logs.retain(|log| !Found::in_log(log).is_whole());
    let mut logs: Vec<Vec<u8>> = logs.into_iter().step_by(10).collect();
    logs.push(mixed_log());
    for log in logs {
        let file = folder.file("times", &log);
        let ran = append(&file, b"more");
        assert_eq!((ran.status, ran.text()), (Some(1), ""));
        let (verify, another) = (in_advice(&file), in_advice(&folder.join("times-2")));
        let begin = format!("{}: nothing was appended", file.display());
        let said: Vec<&str> = ran.err.lines().collect();
        let verdict = said[0].strip_prefix(&format!("mellansko: {begin}"));
        let verdict = verdict
            .expect(&begin)
            .split_once(". After what is in doubt");
        check_verdict(verdict.expect("a verdict").0, &Found::in_log(&log));
        let mended = in_advice(&folder.join("times-mended"));
        let mut advice = vec![
            format!("mellansko: to begin another journal: mellansko append --new {another}"),
            format!("mellansko: to see what is in doubt: mellansko verify {verify}"),
        ];
        // If there are any.
        if !Found::in_log(&log).records.is_empty() {
            advice.push(format!(
                "mellansko: to write all readable records into a new journal, which will not show \
                 that anything is missing: mellansko mend {verify} {mended}"
            ));
        }
        assert_eq!(said[1..], advice);
        assert!(bytes_of(&file) == log, "{log:x?}");
    }
}

#[test]
fn new_begins_a_journal_and_never_touches_one() {
    let folder = Folder::new("append-new");
    let missing = folder.join("missing");
    append(&missing, b"1").failed(
        2,
        &["missing", "nothing was appended", "no such file", "--new"],
    );
    assert_eq!(folder.names(), [""; 0]);
    for there in [&b""[..], &written(&[b"1"]), b"no journal"] {
        let file = folder.file("there", there);
        append_new(&file, b"2").failed(2, &["there", "nothing was appended", "already"]);
        assert_eq!(bytes_of(&file), there);
    }
    let nowhere = folder.join("no").join("log");
    append_new(&nowhere, b"1").failed(2, &["nothing was appended", "no folder"]);
    append(&nowhere, b"1").failed(2, &["nothing was appended", "no such file"]);
    let link = folder.join("link");
    symlink("nothing", &link).expect("a link");
    append_new(&link, b"1").failed(2, &["link", "nothing was appended", "not there"]);
    assert_eq!(folder.names(), ["link", "there"]);

    // A name without a folder before it, and one that begins with a dash.
    let words = ["append", "--new", "--", "-times"];
    fed(tool().args(words).current_dir(&*folder), b"1").done();
    assert_eq!(bytes_of(&folder.join("-times")), written(&[b"1"]));
}

#[test]
fn what_is_no_plain_file_is_refused_at_once() {
    let folder = Folder::new("append-kind");
    append(&folder, b"1").failed(2, &["append-kind", "folder"]);
    append_new(&folder, b"1").failed(2, &["append-kind", "already"]);
    append(Path::new("/dev/null"), b"1").failed(2, &["/dev/null", "not a plain file"]);
    append(Path::new("/dev/full"), b"1").failed(2, &["/dev/full", "not a plain file"]);
    let fifo = folder.join("fifo");
    let made = Command::new("mkfifo").arg(&fifo).status();
    assert!(made.expect("mkfifo").success());
    append(&fifo, b"1").failed(2, &["fifo", "not a plain file"]);
    feed!(b"1"; "append", "-").failed(2, &["append", "standard input"]);
}

#[test]
fn a_file_without_permission_is_left_alone() {
    let folder = Folder::new("append-permission");
    let log = written(&[b"1"]);
    let file = folder.file("log", &log);
    for mode in [0o444, 0o222, 0o000] {
        fs::set_permissions(&file, fs::Permissions::from_mode(mode)).expect("permissions");
        let mut command = tool();
        let Some(command) = as_nobody(&mut command) else {
            return;
        };
        fed(command.arg("append").arg(&file), b"2").failed(2, &["log", "permission is denied"]);
    }
    fs::set_permissions(&file, fs::Permissions::from_mode(0o644)).expect("permissions");
    assert_eq!(bytes_of(&file), log);
    fs::set_permissions(&*folder, fs::Permissions::from_mode(0o555)).expect("permissions");
    let new = folder.join("new");
    if let Some(command) = as_nobody(&mut tool()) {
        let ran = fed(command.args(["append", "--new"]).arg(&new), b"2");
        ran.failed(2, &["new", "permission is denied"]);
    }
    fs::set_permissions(&*folder, fs::Permissions::from_mode(0o755)).expect("permissions");
    assert_eq!(folder.names(), ["log"]);
}

#[test]
fn a_journal_that_another_program_has_locked_is_refused() {
    let folder = Folder::new("append-locked");
    let log = written(&[b"1"]);
    let file = folder.file("log", &log);
    let other = File::open(&file).expect("the journal");
    other.lock().expect("the lock");
    append(&file, b"2").failed(2, &["log", "nothing was appended", "locked"]);
    assert_eq!(bytes_of(&file), log);
    other.unlock().expect("the lock");
    append(&file, b"2").done();
    assert_eq!(bytes_of(&file), written(&[b"1", b"2"]));
}

/// Takes the lock as soon as the file is there, which is before or after the tool does. If before,
/// the tool has to keep off.
#[test]
fn a_new_journal_is_locked_before_it_is_written() {
    let folder = Folder::new("append-new-locked");
    let record = vec![7; 200_000];
    for round in 0..20 {
        let path = folder.join(format!("log-{round}"));
        let ran = thread::scope(|scope| {
            let run = scope.spawn(|| append_new(&path, &record));
            let other = loop {
                let ended = run.is_finished();
                match File::open(&path) {
                    Ok(file) => break file,
                    Err(_) => assert!(!ended, "no file"),
                }
            };
            let first = other.try_lock().is_ok();
            let length = other.metadata().expect("the journal").len();
            (run.join().expect("an end"), first && length == 0)
        });
        match ran {
            (ran, true) => {
                ran.failed(2, &["nothing was appended", "locked"]);
                assert_eq!(bytes_of(&path), b"");
            }
            (ran, false) => {
                ran.done();
                assert!(bytes_of(&path) == written(&[&record]));
            }
        }
    }
}

#[test]
fn of_several_that_begin_the_same_journal_one_does() {
    let folder = Folder::new("append-begin");
    for round in 0..6 {
        let file = folder.join(format!("log-{round}"));
        let accepted: Vec<Vec<u8>> = thread::scope(|scope| {
            let one = |i: u8| (append_new(&file, &[i; 1_000]).status == Some(0)).then_some(i);
            let runs: Vec<_> = (0..6).map(|i| scope.spawn(move || one(i))).collect();
            let ends = runs
                .into_iter()
                .filter_map(|run| run.join().expect("an end"));
            ends.map(|i| vec![i; 1_000]).collect()
        });
        assert_eq!(accepted.len(), 1);
        assert!(bytes_of(&file) == written(&accepted));
    }
}

#[test]
fn appends_at_the_same_time_neither_mix_nor_lose_a_record() {
    let folder = Folder::new("append-crowd");
    for round in 0..6 {
        let file = folder.join(format!("log-{round}"));
        let one = |i: usize| {
            let record = vec![i as u8; 1_000 * i];
            // The first begins it, and the others come while it does.
            let ran = match i {
                0 => append_new(&file, &record),
                _ => append(&file, &record),
            };
            (ran.status == Some(0)).then_some(record)
        };
        let accepted: Vec<Vec<u8>> = thread::scope(|scope| {
            let runs: Vec<_> = (0..8).map(|i| scope.spawn(move || one(i))).collect();
            let ends = runs.into_iter().map(|run| run.join().expect("an end"));
            ends.flatten().collect()
        });
        let log = bytes_of(&file);
        let found = Found::in_log(&log);
        assert!(found.is_whole(), "{:?} {:?}", found.skips, found.torn);
        let mut records: Vec<Vec<u8>> = found.records.into_iter().map(|(_, bytes)| bytes).collect();
        records.sort();
        assert!(
            records == accepted,
            "{} of {}",
            records.len(),
            accepted.len()
        );
    }
}

/// Starts an append, and when it waits for the record does something, and only then gives it one.
fn meanwhile(words: &[&str], file: &Path, something: impl FnOnce()) -> Ran {
    let mut command = tool();
    command.arg("append").args(words).arg(file);
    command.stdin(Stdio::piped()).stdout(Stdio::piped());
    let child = command.stderr(Stdio::piped()).spawn().expect("the tool");
    thread::sleep(Duration::from_millis(100));
    something();
    finish(child, b"mine".to_vec())
}

#[test]
fn what_happens_while_the_record_is_typed_is_not_overlooked() {
    let folder = Folder::new("append-meanwhile");
    let file = folder.file("log", &written(&["first"]));
    let more = written(&["first", "second"]);
    let change = |bytes: &[u8]| fs::write(&file, bytes).expect("the journal");
    meanwhile(&[], &file, || change(&more)).done();
    assert_eq!(bytes_of(&file), written(&["first", "second", "mine"]));

    let doubtful = meanwhile(&[], &file, || change(&more[..15]));
    assert_eq!((doubtful.status, doubtful.text()), (Some(1), ""));
    doubtful.warned(&["IN DOUBT"]);
    assert_eq!(bytes_of(&file), more[..15]);

    // Another file under the name: the record is not to be lost with the old one.
    change(&more);
    let other = folder.file("other", &written(&["other"]));
    meanwhile(&[], &file, || {
        fs::rename(&other, &file).expect("a new name")
    })
    .done();
    assert_eq!(bytes_of(&file), written(&["other", "mine"]));

    let remove = || fs::remove_file(&file).expect("the journal");
    meanwhile(&[], &file, remove).failed(2, &["no such file"]);
    assert_eq!(folder.names(), [""; 0]);
    for there in [b"".to_vec(), more] {
        meanwhile(&["--new"], &file, || change(&there)).failed(2, &["already"]);
        assert_eq!(bytes_of(&file), there);
        fs::remove_file(&file).expect("the journal");
    }
}

/// Runs the tool where a file can't get longer than 32 or 64 KiB, as the shell has it.
fn short_of_room() -> Command {
    let mut command = Command::new("sh");
    command.args(["-c", "ulimit -f 64; exec \"$@\"", "sh"]);
    command.arg(env!("CARGO_BIN_EXE_mellansko"));
    command
}

#[test]
fn a_write_that_fails_halfway_is_taken_back() {
    let folder = Folder::new("append-halfway");
    for before in [written(&[b"1"]), Vec::new(), written(&[vec![3; 30_000]])] {
        let file = folder.file("log", &before);
        let ran = fed(short_of_room().arg("append").arg(&file), &[2; 200_000]);
        ran.failed(2, &["log", "nothing was appended", "could not be written"]);
        assert!(bytes_of(&file) == before, "{} bytes", before.len());
        // What fits is appended, though.
        fed(short_of_room().arg("append").arg(&file), b"2").done();
    }
    let ran = fed(
        short_of_room()
            .args(["append", "--new"])
            .arg(folder.join("new")),
        &[2; 200_000],
    );
    ran.failed(2, &["new", "nothing was appended", "could not be written"]);
    assert_eq!(folder.names(), ["log"]);
}

#[test]
fn a_record_is_appended_though_nobody_hears_of_it() {
    let folder = Folder::new("append-unheard");
    let file = folder.file("log", b"");
    let mut log = Vec::new();
    let (reader, closed) = pipe().expect("a pipe");
    drop(reader);
    let full = OpenOptions::new().write(true).open("/dev/full");
    let full = full.expect("/dev/full");
    for output in [Stdio::from(closed), Stdio::from(full)] {
        let mut command = tool();
        command
            .arg("append")
            .arg(&file)
            .stdin(Stdio::piped())
            .stdout(output);
        let child = command.stderr(Stdio::piped()).spawn().expect("the tool");
        finish(child, b"times".to_vec()).done();
        add(&mut log, b"times");
        assert_eq!(bytes_of(&file), log);
    }
    let mut command = Command::new("sh");
    command.args([
        "-c",
        "exec \"$@\" >&-",
        "sh",
        env!("CARGO_BIN_EXE_mellansko"),
    ]);
    fed(command.arg("append").arg(&file), b"times").done();
    add(&mut log, b"times");
    assert_eq!(bytes_of(&file), log);
}

#[test]
fn a_folder_that_can_not_be_read_does_not_keep_a_journal_from_growing() {
    let folder = Folder::new("append-unlisted");
    let file = folder.file("log", b"");
    fs::set_permissions(&file, fs::Permissions::from_mode(0o666)).expect("permissions");
    fs::set_permissions(&*folder, fs::Permissions::from_mode(0o711)).expect("permissions");
    match as_nobody(&mut tool()) {
        Some(command) => {
            fed(command.arg("append").arg(&file), b"1").done();
            assert_eq!(bytes_of(&file), written(&[b"1"]));
        }
        None => left_out("a folder that can't be listed"),
    }
}
