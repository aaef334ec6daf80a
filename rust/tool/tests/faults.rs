//! `mellansko append` on a disk that fails, and `append` and `verify` beside a program that takes no
//! lock.

mod common;

use common::expect::written;
use common::files::Folder;
use common::preload::{faults, with};
use common::{fed, ran, tool, Ran};
use reference::log::{fragment, FIRST, FULL, LAST, MIDDLE};
use std::fs;
use std::path::Path;
use std::process::Command;

fn appending(library: &Path, words: &[&str], file: &Path, fault: (&str, &str)) -> Command {
    let mut command = tool();
    command.arg("append").args(words).arg(file);
    with(library, &[fault], command)
}

fn append(library: &Path, words: &[&str], file: &Path, fault: (&str, &str)) -> Ran {
    fed(&mut appending(library, words, file, fault), b"mine")
}

#[test]
fn a_record_that_does_not_reach_the_disk_is_taken_back() {
    let folder = Folder::new("faults-disk");
    let Some(library) = faults(&folder) else {
        return;
    };
    let before = written(&["first"]);
    let file = folder.file("log", &before);
    let failing = ("FAIL_FSYNC", "1");
    append(&library, &[], &file, failing).failed(2, &["log", "nothing was appended", "written"]);
    assert_eq!(fs::read(&file).expect("the journal"), before);
    // A new file's name has to reach it too, as the second.
    let new = folder.join("new");
    for failing in ["1", "2"] {
        let ran = append(&library, &["--new"], &new, ("FAIL_FSYNC", failing));
        ran.failed(2, &["new", "nothing was appended", "written"]);
        assert!(!new.exists());
    }
    append(&library, &["--new"], &new, ("FAIL_FSYNC", "3")).done();
    append(&library, &[], &file, ("FAIL_FSYNC", "2")).done();
    assert_eq!(
        fs::read(&file).expect("the journal"),
        written(&["first", "mine"])
    );
}

/// Where folders can't be flushed, nothing can be asked but that the bytes are on the disk.
#[test]
fn a_disk_that_flushes_no_folders_gets_a_journal_too() {
    let folder = Folder::new("faults-folder");
    let Some(library) = faults(&folder) else {
        return;
    };
    let new = folder.join("new");
    // EINVAL and EOPNOTSUPP.
    for error in ["22", "95"] {
        let mut command = appending(&library, &["--new"], &new, ("FAIL_FSYNC", "2"));
        fed(command.env("FAIL_WITH", error), b"mine").done();
        assert_eq!(fs::read(&new).expect("the journal"), written(&["mine"]));
        fs::remove_file(&new).expect("the journal");
    }
}

#[test]
fn after_what_another_program_writes_meanwhile_nothing_is_written() {
    let folder = Folder::new("faults-grow");
    let Some(library) = faults(&folder) else {
        return;
    };
    let before = written(&["first"]);
    let file = folder.file("log", &before);
    let name = file.to_str().expect("a name in UTF-8");
    let ran = append(&library, &[], &file, ("GROW", name));
    ran.failed(2, &["log", "nothing was appended", "another program wrote"]);
    assert_eq!(
        fs::read(&file).expect("the journal"),
        [&before[..], b"x"].concat()
    );
}

#[test]
fn a_journal_that_is_replaced_before_it_is_locked_gets_no_record() {
    let folder = Folder::new("faults-replace");
    let Some(library) = faults(&folder) else {
        return;
    };
    let before = written(&["first"]);
    let file = folder.file("log", &before);
    let name = file.to_str().expect("a name in UTF-8");
    let mut command = appending(&library, &[], &file, ("REPLACE", name));
    let ran = fed(command.current_dir(&*folder), b"mine");
    ran.failed(
        2,
        &["log", "nothing was appended", "another file has its name"],
    );
    let bytes = |name: &str| fs::read(folder.join(name)).expect("a file");
    assert_eq!((bytes("aside"), bytes("log")), (before, Vec::new()));
}

/// What is listed is what the answer speaks of, though it takes several readings of the file.
#[test]
fn a_list_that_is_longer_than_twenty_is_of_the_file_that_was_judged() {
    let folder = Folder::new("faults-list");
    let Some(library) = faults(&folder) else {
        return;
    };
    let log = [fragment(FULL, b"1"), fragment(LAST, b"2")].concat();
    let verify = || {
        let mut command = tool();
        command.args(["verify", "--all", "log"]);
        command.current_dir(&*folder);
        command
    };
    let file = folder.file("log", &log.repeat(30));
    let plain = ran(&mut verify());
    assert_eq!(plain.text().matches("\nGap of ").count(), 30);
    // What is added later is no part of it.
    let grown = ran(&mut with(&library, &[("GROW", "log")], verify()));
    assert!(fs::metadata(&file).expect("the file").len() > 30 * 16);
    assert_eq!((grown.status, grown.text()), (Some(1), plain.text()));

    folder.file("log", &log.repeat(30));
    let changed = ran(&mut with(&library, &[("CHANGE", "log")], verify()));
    assert_eq!(changed.lines()[0], plain.lines()[0]);
    changed.complained(2, &["log", "changed while it was read"]);
    // Two empty starts, and then one as long as both.
    let (first, middle) = (fragment(FIRST, b""), fragment(MIDDLE, b""));
    folder.file("log", &[&first[..], &first, &log.repeat(30)].concat());
    let one = [first, middle].concat();
    let one: Vec<String> = one.iter().map(u8::to_string).collect();
    let faults = [("CHANGE", "log"), ("CHANGE_TO", &one.join(" "))];
    let changed = ran(&mut with(&library, &faults, verify()));
    assert!(changed.lines()[1].starts_with("2 empty starts, 14 bytes"));
    changed.complained(2, &["log", "changed while it was read"]);
}

/// Nor is the record read that would be appended.
#[test]
fn what_is_too_long_is_refused_before_anything_of_it_is_read() {
    let folder = Folder::new("faults-long");
    let Some(library) = faults(&folder) else {
        return;
    };
    let file = folder.zeros("log", 1_073_741_825);
    for words in [
        &["verify", "log"][..],
        &["verify", "--all", "log"],
        &["dump", "log"],
        &["dump", "--follow", "log"],
        &["map", "log"],
        &["cat", "log", "1"],
        &["append", "log"],
        &["mend", "log", "new"],
    ] {
        let mut command = tool();
        command.args(words).current_dir(&*folder);
        let ran = fed(&mut with(&library, &[("BAD_FROM", "0")], command), b"1");
        assert_eq!(ran.text(), if words[0] == "dump" { "X 1\n" } else { "" });
        ran.complained(2, &["log", "longer than 1 073 741 824 bytes", "refusal 1"]);
        assert!(!ran.err.contains("could not"), "{}", ran.err);
    }
    assert_eq!(file.metadata().expect("the file").len(), 1_073_741_825);
    // A shorter one is read.
    folder.zeros("log", 1_000);
    for words in [&["cat", "log", "1"][..], &["append", "log"]] {
        let mut command = tool();
        command.args(words).current_dir(&*folder);
        let ran = fed(&mut with(&library, &[("BAD_FROM", "0")], command), b"1");
        ran.failed(2, &["log", "could not be read: Input/output error"]);
    }
}
