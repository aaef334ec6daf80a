//! `mellansko mend` and files: the bad one is only read, and the new one is written over nothing.

#[macro_use]
mod common;

use common::damage::mixed_log;
use common::expect::{mended, written, Found};
use common::files::{as_nobody, left_out, Folder};
use common::{finish, ran, tool, Ran};
use std::ffi::OsStr;
use std::fs::{self, OpenOptions, Permissions};
use std::io::pipe;
use std::os::unix::ffi::OsStrExt;
use std::os::unix::fs::{chown, symlink, MetadataExt, PermissionsExt};
use std::path::Path;
use std::process::{Command, Stdio};
use std::time::Instant;

fn mend(bad: impl AsRef<OsStr>, new: impl AsRef<OsStr>) -> Ran {
    run!("mend", bad.as_ref(), new.as_ref())
}

/// The same in a folder.
fn mend_in(folder: &Folder, bad: &str, new: &str) -> Ran {
    let mut command = tool();
    command.args(["mend", "--", bad, new]);
    ran(command.current_dir(&**folder))
}

fn bytes_of(path: &Path) -> Vec<u8> {
    fs::read(path).expect("a file")
}

fn set_mode(path: &Path, mode: u32) {
    fs::set_permissions(path, Permissions::from_mode(mode)).expect("permissions");
}

#[test]
fn nothing_that_is_there_is_written_over() {
    let folder = Folder::new("mend-over");
    let log = mixed_log();
    folder.file("bad", &log);
    folder.file("empty", b"");
    folder.file("file", b"no journal");
    fs::create_dir(folder.join("folder")).expect("a folder");
    symlink("nothing", folder.join("nowhere")).expect("a link");
    symlink("nothing/at all", folder.join("farther")).expect("a link");
    symlink("file", folder.join("link")).expect("a link");
    symlink("folder", folder.join("door")).expect("a link");
    let before = folder.names();
    for (new, says) in [
        ("empty", "it is there already, and nothing is written over"),
        ("file", "it is there already"),
        ("link", "it is there already"),
        ("folder", "it is a folder. Name a file in it"),
        ("folder/", "it is a folder"),
        ("folder/.", "it is a folder"),
        ("door", "it is a folder"),
        (".", "it is a folder"),
        ("..", "it is a folder"),
        ("nowhere", "it is a link that leads nowhere"),
        ("farther", "it is a link that leads nowhere"),
    ] {
        let ran = mend_in(&folder, "bad", new);
        ran.failed(
            2,
            &[&format!("mellansko: {new}: nothing was written: {says}")],
        );
        assert_eq!(folder.names(), before, "{new}");
    }
    assert!(bytes_of(&folder.join("bad")) == log);
    assert_eq!(bytes_of(&folder.join("empty")), b"");
    assert_eq!(bytes_of(&folder.join("file")), b"no journal");
    let inside = fs::read_dir(folder.join("folder")).expect("the folder");
    assert_eq!(inside.count(), 0);
}

#[test]
fn the_bad_journal_is_not_written_to_by_any_name_for_it() {
    let folder = Folder::new("mend-itself");
    let log = mixed_log();
    let bad = folder.file("bad.log", &log);
    fs::create_dir(folder.join("in")).expect("a folder");
    symlink("bad.log", folder.join("link")).expect("a link");
    symlink("../link", folder.join("in/link")).expect("a link");
    symlink("..", folder.join("in/out")).expect("a link");
    fs::hard_link(&bad, folder.join("second")).expect("a second name");
    let before = folder.names();
    for (bad, new, advised) in [
        ("bad.log", "bad.log", "bad.log bad-mended.log"),
        ("bad.log", "./bad.log", "bad.log bad-mended.log"),
        ("bad.log", "in/../bad.log", "bad.log bad-mended.log"),
        ("bad.log", "in/out/bad.log", "bad.log bad-mended.log"),
        ("bad.log", "link", "bad.log bad-mended.log"),
        ("bad.log", "in/link", "bad.log bad-mended.log"),
        ("bad.log", "second", "bad.log bad-mended.log"),
        ("link", "bad.log", "link link-mended"),
        ("in/link", "in/link", "in/link in/link-mended"),
    ] {
        let ran = mend_in(&folder, bad, new);
        let advice = format!("To write to another name: mellansko mend {advised}\n");
        let says = [
            new,
            "nothing was written",
            "the bad journal itself",
            &advice,
        ];
        ran.failed(2, &says);
        assert_eq!(folder.names(), before);
    }
    assert!(bytes_of(&bad) == log);
}

#[test]
fn the_bad_journal_stays_as_it_is() {
    let folder = Folder::new("mend-read");
    let log = mixed_log();
    let bad = folder.file("bad", &log);
    let state = |path: &Path| {
        let about = fs::metadata(path).expect("the bad journal");
        let times = (about.mtime(), about.mtime_nsec(), about.ctime_nsec());
        (about.ino(), about.mode(), about.nlink(), times)
    };
    let before = state(&bad);
    assert_eq!(mend(&bad, folder.join("new")).status, Some(1));
    assert_eq!(state(&bad), before);
    assert!(bytes_of(&bad) == log);

    // One that may only be read, from a folder that may only be read.
    let (shelf, desk) = (folder.join("shelf"), folder.join("desk"));
    for folder in [&shelf, &desk] {
        fs::create_dir(folder).expect("a folder");
    }
    fs::write(shelf.join("bad"), &log).expect("a file");
    set_mode(&shelf.join("bad"), 0o444);
    set_mode(&shelf, 0o555);
    set_mode(&desk, 0o777);
    let mut command = tool();
    if let Some(command) = as_nobody(&mut command) {
        command
            .arg("mend")
            .args([shelf.join("bad"), desk.join("new")]);
        assert_eq!(ran(command).status, Some(1));
        assert!(bytes_of(&desk.join("new")) == mended(&Found::in_log(&log)));
    }
    set_mode(&shelf, 0o755);
}

/// The bits of the new journal, where the bad one has these.
fn mode_after(bad: &Path, mode: u32, mask: &str) -> u32 {
    set_mode(bad, mode);
    let new = bad.with_file_name("new");
    let mut shell = Command::new("sh");
    shell.args(["-c", "umask \"$1\"; shift; exec \"$@\"", "sh", mask]);
    shell.arg(env!("CARGO_BIN_EXE_mellansko")).arg("mend");
    ran(shell.args([bad, &new]).stdin(Stdio::null())).done();
    let about = fs::metadata(&new).expect("the new journal");
    fs::remove_file(new).expect("the new journal");
    about.mode() & 0o7777
}

#[test]
fn the_new_journal_lets_others_do_no_more_than_the_bad_one() {
    let folder = Folder::new("mend-mode");
    let bad = folder.file("bad", &written(&[b"1"]));
    for (mode, expected) in [
        (0o600, 0o600),
        (0o640, 0o640),
        (0o644, 0o644),
        (0o604, 0o604),
        (0o666, 0o644),
        (0o755, 0o644),
        (0o4755, 0o644),
        // Its owner can write to it, though.
        (0o444, 0o644),
        (0o400, 0o600),
    ] {
        assert_eq!(mode_after(&bad, mode, "022"), expected, "{mode:o}");
    }
    assert_eq!(mode_after(&bad, 0o666, "000"), 0o666);
    assert_eq!(mode_after(&bad, 0o664, "007"), 0o660);
    assert_eq!(mode_after(&bad, 0o644, "077"), 0o600);
}

/// Whoever is not in the bad journal's group, or is in it alone, gets nothing by that.
#[test]
fn a_new_journal_of_another_group_lets_it_do_only_what_all_may() {
    let folder = Folder::new("mend-group");
    let bad = folder.file("bad", &written(&[b"1"]));
    let group = fs::metadata(&bad).expect("the bad journal").gid();
    if chown(&bad, None, Some(group + 1)).is_err() {
        return left_out("a journal of another group: only for root");
    }
    for (mode, expected) in [
        (0o600, 0o600),
        (0o640, 0o600),
        (0o660, 0o600),
        (0o604, 0o600),
        (0o644, 0o644),
        (0o664, 0o644),
        (0o646, 0o644),
        (0o666, 0o666),
    ] {
        assert_eq!(mode_after(&bad, mode, "000"), expected, "{mode:o}");
    }
}

#[test]
fn a_bad_journal_that_can_not_be_read_is_named_with_the_reason() {
    let folder = Folder::new("mend-unread");
    let log = written(&[b"1"]);
    let file = folder.file("file", &log);
    symlink("loop", folder.join("loop")).expect("a link");
    let made = Command::new("mkfifo").arg(folder.join("fifo")).status();
    assert!(made.expect("mkfifo").success());
    let (before, begun) = (folder.names(), Instant::now());
    for (bad, says) in [
        ("missing", "it could not be read: there is no such file"),
        ("no/such", "it could not be read: there is no such file"),
        ("file/x", "before a slash is no folder"),
        (".", "it could not be read: it is a folder"),
        ("loop", "it could not be read: "),
        ("fifo", "it is not a plain file"),
        ("/dev/zero", "it is not a plain file"),
        ("/dev/null", "it is not a plain file"),
        ("/dev/stdin", "it is not a plain file"),
    ] {
        let mut command = tool();
        command.args(["mend", bad, "new"]).current_dir(&*folder);
        let says = format!("mellansko: {bad}: nothing was written: {says}");
        let (start, end) = says.rsplit_once(": ").expect("a reason");
        ran(command.stdin(Stdio::piped())).failed(2, &[start, end]);
        assert_eq!(folder.names(), before, "{bad}");
    }
    assert!(begun.elapsed().as_secs() < 20);
    set_mode(&file, 0o222);
    if let Some(command) = as_nobody(&mut tool()) {
        set_mode(&folder, 0o777);
        let ran = ran(command.arg("mend").args([&file, &folder.join("new")]));
        ran.failed(2, &["file: nothing was written", "permission is denied"]);
    }
    assert_eq!(folder.names(), before);
}

#[test]
fn a_new_journal_that_can_not_be_begun_is_named_with_the_reason() {
    let folder = Folder::new("mend-begun");
    let bad = folder.file("bad", &written(&[b"1"]));
    let long = "x".repeat(256);
    for (new, says) in [
        ("no/new", "there is no folder no. Make it first"),
        ("no/such/new", "there is no folder no/such"),
        ("bad/new", "before a slash is no folder"),
        ("new/", "a file's name is missing after the last slash"),
        ("new/.", "a file's name is missing after the last slash"),
        (&long, "it could not be begun: "),
        ("/proc/new", "it could not be begun: "),
    ] {
        let ran = mend_in(&folder, "bad", new);
        ran.failed(2, &[new, "nothing was written: ", says]);
        assert_eq!(folder.names(), ["bad"], "{new}");
    }
    set_mode(&folder, 0o555);
    if let Some(command) = as_nobody(&mut tool()) {
        let ran = ran(command.arg("mend").args([&bad, &folder.join("new")]));
        ran.failed(
            2,
            &["new: nothing was written: permission is denied in the folder"],
        );
    }
    // A name that is taken shows before anything is begun, which could not be here.
    set_mode(&folder, 0o755);
    folder.file("taken", b"theirs");
    set_mode(&folder, 0o555);
    if let Some(command) = as_nobody(&mut tool()) {
        let ran = ran(command.arg("mend").args([&bad, &folder.join("taken")]));
        ran.failed(2, &["taken: nothing was written: it is there already"]);
    }
    set_mode(&folder, 0o755);
    fs::remove_file(folder.join("taken")).expect("their file");
    assert_eq!(folder.names(), ["bad"]);
    // The longest name that there can be, to which nothing can be added meanwhile.
    mend_in(&folder, "bad", &long[1..]).done();
}

#[test]
fn names_of_any_kind_are_names() {
    let log = mixed_log();
    let expected = mended(&Found::in_log(&log));
    for name in [
        &b"two words"[..],
        b" ",
        b"-dash",
        b"--new",
        b"*?$(x)",
        b"J\xe4mtland",
        b"line\nbreak",
        b"\x1b[2J",
        b"...",
    ] {
        let folder = Folder::new("mend-names");
        let name = OsStr::from_bytes(name);
        let new = OsStr::from_bytes(&[name.as_bytes(), b"2"].concat()).to_os_string();
        folder.file(name, &log);
        let mut command = tool();
        command.args(["mend", "--"]).arg(name).arg(&new);
        let ran = ran(command.current_dir(&*folder));
        assert_eq!((ran.status, ran.err.as_str()), (Some(1), ""));
        let tricks = |c: char| c.is_control() && c != '\n';
        assert!(!ran.text().contains(tricks), "{:?}", ran.text());
        assert!(ran.lines()[1].contains(": LOST: "), "{}", ran.text());
        assert!(bytes_of(&folder.join(&new)) == expected);
        assert!(bytes_of(&folder.join(name)) == log);
        assert_eq!(folder.names().len(), 2);
    }
}

#[test]
fn a_journal_is_mended_though_nobody_hears_of_it() {
    let folder = Folder::new("mend-unheard");
    for (log, status) in [(written(&[b"1"]), 0), (mixed_log(), 1)] {
        folder.file("bad", &log);
        let new = folder.join("new");
        let (reader, closed) = pipe().expect("a pipe");
        drop(reader);
        let full = OpenOptions::new().write(true).open("/dev/full");
        let full = full.expect("/dev/full");
        let untold = "mellansko: new: it is written, but not all could be told of what was kept \
                      and what was lost: standard output could not be written: No space left on \
                      device (os error 28). To see what damage the bad journal shows: mellansko \
                      verify bad\n";
        let outputs = [(Stdio::from(closed), ""), (Stdio::from(full), untold)];
        for (output, said) in outputs {
            let mut command = tool();
            command.args(["mend", "bad", "new"]).current_dir(&*folder);
            command.stdout(output).stderr(Stdio::piped());
            let ran = finish(command.spawn().expect("the tool"), Vec::new());
            assert_eq!((ran.status, ran.err.as_str()), (Some(status), said));
            assert!(bytes_of(&new) == mended(&Found::in_log(&log)));
            fs::remove_file(&new).expect("the new journal");
        }
        assert_eq!(folder.names(), ["bad"]);
    }
}
