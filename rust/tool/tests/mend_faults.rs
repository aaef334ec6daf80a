//! `mellansko mend` on a disk that fails, and beside programs that want the same name: the new
//! journal is there to its end, or not at all.

mod common;

use common::damage::mixed_log;
use common::expect::{mended, written, Found};
use common::files::Folder;
use common::preload::{faults, with};
use common::{fed, ran, tool, Ran};
use std::fs::{self, File, Permissions};
use std::os::unix::fs::PermissionsExt;
use std::path::{Path, PathBuf};
use std::process::{Command, Stdio};
use std::thread;

/// Errors by their numbers.
const EINVAL: &str = "22";
const ENOSPC: &str = "28";
const EOPNOTSUPP: &str = "95";

/// A folder with a bad journal in it, the journal that it mends to, and the faults.
struct Place {
    folder: Folder,
    library: PathBuf,
    log: Vec<u8>,
    expected: Vec<u8>,
}

impl Place {
    fn new(name: &str) -> Option<Place> {
        let folder = Folder::new(name);
        let library = faults(&folder)?;
        let log = mixed_log();
        folder.file("bad", &log);
        let expected = mended(&Found::in_log(&log));
        Some(Place {
            folder,
            library,
            log,
            expected,
        })
    }

    fn mend(&self, faults: &[(&str, &str)]) -> Ran {
        let mut command = tool();
        command.args(["mend", "bad", "new"]);
        command.current_dir(&*self.folder);
        ran(&mut with(&self.library, faults, command))
    }

    /// Makes sure that besides the bad journal, which is as it was, there are these files alone.
    fn has_only(&self, names: &[&str]) {
        let mut expected = vec!["bad", "faults.so"];
        expected.extend(names);
        expected.sort();
        assert_eq!(self.folder.names(), expected);
        assert!(self.bytes("bad") == self.log);
    }

    fn bytes(&self, name: &str) -> Vec<u8> {
        fs::read(self.folder.join(name)).expect(name)
    }

    /// The new journal, which is then removed.
    fn is_mended(&self) {
        self.has_only(&["new"]);
        assert!(self.bytes("new") == self.expected);
        fs::remove_file(self.folder.join("new")).expect("the new journal");
    }
}

#[test]
fn a_journal_that_does_not_reach_the_disk_is_not_left_there() {
    let Some(place) = Place::new("mend-disk") else {
        return;
    };
    // Its bytes first, and then its name.
    for failing in ["1", "2"] {
        let ran = place.mend(&[("FAIL_FSYNC", failing)]);
        ran.failed(2, &["new: nothing was written: it could not be written: "]);
        place.has_only(&[]);
    }
    assert_eq!(place.mend(&[("FAIL_FSYNC", "3")]).status, Some(1));
    place.is_mended();
}

/// Where folders can't be flushed, nothing can be asked but that the bytes are on the disk.
#[test]
fn a_disk_that_flushes_no_folders_gets_a_journal_too() {
    let Some(place) = Place::new("mend-folder") else {
        return;
    };
    for error in [EINVAL, EOPNOTSUPP] {
        let ran = place.mend(&[("FAIL_FSYNC", "2"), ("FAIL_WITH", error)]);
        assert_eq!((ran.status, ran.err.as_str()), (Some(1), ""));
        place.is_mended();
        // The file itself can be flushed, or it is not written.
        let ran = place.mend(&[("FAIL_FSYNC", "1"), ("FAIL_WITH", error)]);
        ran.failed(2, &["new: nothing was written: it could not be written: "]);
        place.has_only(&[]);
    }
}

/// A bad journal on a disk that fails halfway is not taken for a shorter one.
#[test]
fn a_bad_journal_that_can_not_be_read_to_its_end_is_not_mended() {
    let Some(place) = Place::new("mend-unreadable") else {
        return;
    };
    let length = place.log.len();
    for readable in [0, 1, 40_000, length - 1, length] {
        let ran = place.mend(&[("BAD_FROM", &readable.to_string())]);
        let says = "bad: nothing was written: it could not be read: Input/output error";
        ran.failed(2, &[says]);
        place.has_only(&[]);
    }
    assert_eq!(
        place
            .mend(&[("BAD_FROM", &(length + 1).to_string())])
            .status,
        Some(1)
    );
    place.is_mended();
}

/// What an append has written by half is no loss.
#[test]
fn a_journal_that_is_being_appended_to_is_not_mended() {
    let Some(place) = Place::new("mend-locked") else {
        return;
    };
    let bad = File::open(place.folder.join("bad")).expect("the bad journal");
    bad.lock().expect("a lock");
    let says = "bad: nothing was written: another program is appending to it";
    place.mend(&[]).failed(2, &[says, "Try again"]);
    place.has_only(&[]);
    // Another that only reads it is in nobody's way.
    bad.unlock().expect("no lock");
    bad.lock_shared().expect("a lock");
    assert_eq!(place.mend(&[]).status, Some(1));
    place.is_mended();
    // But an append has to wait until it is read.
    let mut append = tool();
    append.args(["append", "bad"]).current_dir(&*place.folder);
    let says = "bad: nothing was appended: another program has it locked";
    fed(&mut append, b"new").failed(2, &[says]);
    place.has_only(&[]);
    // Nor is a disk that has no locks.
    let ran = place.mend(&[("NO_LOCKS", "1")]);
    assert_eq!((ran.status, ran.err.as_str()), (Some(1), ""));
    place.is_mended();
}

#[test]
fn on_a_disk_that_gets_full_nothing_is_left() {
    let Some(place) = Place::new("mend-full") else {
        return;
    };
    let length = place.expected.len();
    for room in [0, 1, 40_000, length - 1] {
        let ran = place.mend(&[("ROOM", &room.to_string())]);
        let says = "new: nothing was written: it could not be written: the disk is full";
        ran.failed(2, &[says, "Make room, and try again"]);
        place.has_only(&[]);
    }
    let ran = place.mend(&[("ROOM", &length.to_string())]);
    assert_eq!(ran.status, Some(1), "{}", ran.err);
    place.is_mended();
}

#[test]
fn where_files_may_not_get_that_long_nothing_is_left() {
    let folder = Folder::new("mend-limit");
    folder.file("bad", &written(&[vec![1; 200_000]]));
    let mut shell = Command::new("sh");
    shell.args(["-c", "ulimit -f 64; exec \"$@\"", "sh"]);
    shell.args([env!("CARGO_BIN_EXE_mellansko"), "mend", "bad", "new"]);
    let ran = ran(shell.stdin(Stdio::null()).current_dir(&*folder));
    ran.failed(
        2,
        &["new: nothing was written", "files may not get that long"],
    );
    assert_eq!(folder.names(), ["bad"]);
}

/// A file gets the name while the new journal is written.
#[test]
fn a_file_that_appears_meanwhile_is_not_written_over() {
    let Some(place) = Place::new("mend-appears") else {
        return;
    };
    let appears = ("APPEAR", "new");
    for faults in [&[appears][..], &[appears, ("NO_LINKS", "1")]] {
        let ran = place.mend(faults);
        ran.failed(2, &["new: nothing was written: it is there already"]);
        place.has_only(&["new"]);
        assert_eq!(place.bytes("new"), b"theirs");
        fs::remove_file(place.folder.join("new")).expect("their file");
    }
}

#[test]
fn a_disk_without_second_names_gets_a_journal_too() {
    let Some(place) = Place::new("mend-links") else {
        return;
    };
    let ran = place.mend(&[("NO_LINKS", "1")]);
    assert_eq!((ran.status, ran.err.as_str()), (Some(1), ""));
    place.is_mended();
    let ran = place.mend(&[("NO_LINKS", "1"), ("NO_RENAMES", "1")]);
    let says = "new: nothing was written: this disk has no way";
    ran.failed(2, &[says, "Name a file on another disk, and then copy it"]);
    place.has_only(&[]);
}

/// The name is given, and the answer that says so is lost: what has the name is no other file.
#[test]
fn a_journal_that_has_its_name_is_not_in_its_own_way() {
    let Some(place) = Place::new("mend-reply") else {
        return;
    };
    let lost = ("LOST_REPLY", "1");
    for faults in [&[lost][..], &[lost, ("NO_LINKS", "1")]] {
        let ran = place.mend(faults);
        assert_eq!((ran.status, ran.err.as_str()), (Some(1), ""));
        place.is_mended();
    }
}

/// The name is given when the bytes are on the disk, and the folder is flushed after that.
#[test]
fn the_journal_is_on_the_disk_before_it_has_its_name() {
    let Some(place) = Place::new("mend-order") else {
        return;
    };
    let to = place.folder.join("to");
    fs::create_dir(&to).expect("a folder");
    let folder = to.canonicalize().expect("the folder");
    let links = &["linkat "][..];
    let renames = &["linkat ", "renameat2 "][..];
    for (faults, naming) in [(&[][..], links), (&[("NO_LINKS", "1")], renames)] {
        let mut command = tool();
        command.args(["mend", "bad", "to/new"]);
        command.current_dir(&*place.folder).env("TRACE", "trace");
        assert_eq!(
            ran(&mut with(&place.library, faults, command)).status,
            Some(1)
        );
        let trace = String::from_utf8(place.bytes("trace")).expect("text");
        let mut lines: Vec<&str> = trace.lines().collect();
        lines.dedup();
        let (write, fsync) = (lines[0], lines[1]);
        let unfinished = write.strip_prefix("write ").expect("a write");
        assert_eq!(Path::new(unfinished).parent(), Some(&*folder));
        assert!(unfinished.ends_with(".unfinished"), "{unfinished}");
        assert_eq!(fsync, format!("fsync {unfinished}"));
        let last = format!("fsync {}", folder.display());
        assert_eq!(lines[2..], [naming, &["unlink ", &last]].concat());
        for file in [to.join("new"), place.folder.join("trace")] {
            fs::remove_file(file).expect("it");
        }
    }
}

fn is_unfinished(name: &str) -> bool {
    name.starts_with("mellansko-mend-") && name.ends_with(".unfinished")
}

#[test]
fn what_could_not_be_removed_is_named() {
    let Some(place) = Place::new("mend-left") else {
        return;
    };
    let stays = ("NO_REMOVALS", "9");
    let unfinished = || {
        let names = place.folder.names().into_iter();
        names.filter(|name| is_unfinished(name)).collect::<Vec<_>>()
    };
    // The new journal is there, and has a second name.
    let ran = place.mend(&[stays]);
    let [left] = &unfinished()[..] else {
        panic!("{:?}", place.folder.names());
    };
    let says = format!("new: is complete. ./{left} could not be removed; it is not needed\n");
    ran.complained(1, &[&says]);
    assert!(place.bytes("new") == place.expected && place.bytes(left) == place.expected);
    for name in ["new", left] {
        fs::remove_file(place.folder.join(name)).expect(name);
    }
    // It is not there, and what was begun is.
    let ran = place.mend(&[stays, ("ROOM", "1000")]);
    let [left] = &unfinished()[..] else {
        panic!("{:?}", place.folder.names());
    };
    ran.failed(2, &["new: nothing was written", "the disk is full", left]);
    place.has_only(&[left]);
    fs::remove_file(place.folder.join(left)).expect(left);
}

/// The name of the new journal may not reach the disk, and what was written can't all be removed.
#[test]
fn what_is_left_of_a_journal_without_a_lasting_name_is_said() {
    let Some(place) = Place::new("mend-lasting") else {
        return;
    };
    let full = [("FAIL_FSYNC", "2"), ("FAIL_WITH", ENOSPC)];
    for (stay, says) in [
        (
            "1",
            "new: nothing was written: it could not be written: \
             the disk is full. Make room, and try again",
        ),
        (
            "2",
            "new: it was written, but after a power cut its name may be missing, since its folder \
             could not be written: the disk is full. Make room, and try again. It could not be \
             removed: permission is denied. Ask the file's owner",
        ),
    ] {
        let ran = place.mend(&[full[0], full[1], ("NO_REMOVALS", stay)]);
        let mut left = place.folder.names();
        left.retain(|name| is_unfinished(name) || name == "new");
        assert_eq!(left.len().to_string(), stay, "{left:?}");
        let end = format!("./{} could not be removed; it is not needed", left[0]);
        ran.failed(2, &[&format!("mellansko: {says}. {end}\n")]);
        for name in left {
            fs::remove_file(place.folder.join(name)).expect("it");
        }
    }
}

/// Whoever sees the new journal sees all of it.
#[test]
fn a_new_journal_is_complete_as_soon_as_it_is_there() {
    let folder = Folder::new("mend-complete");
    let log = written(&vec![vec![7; 200_000]; 20]);
    let bad = folder.file("bad", &log);
    for round in 0..10 {
        let new = folder.join(format!("new-{round}"));
        let seen = thread::scope(|scope| {
            let run = scope.spawn(|| ran(tool().arg("mend").args([&bad, &new])));
            let file = loop {
                let ended = run.is_finished();
                match File::open(&new) {
                    Ok(file) => break file,
                    Err(_) => assert!(!ended, "no file"),
                }
            };
            let seen = file.metadata().expect("the new journal").len();
            run.join().expect("an end").done();
            seen
        });
        assert_eq!(seen, log.len() as u64);
        fs::remove_file(new).expect("the new journal");
    }
    assert_eq!(folder.names(), ["bad"]);
}

#[test]
fn of_several_that_mend_into_one_file_one_does() {
    let folder = Folder::new("mend-crowd");
    let logs: Vec<Vec<u8>> = (0..6).map(|i| written(&[vec![i; 50_000]])).collect();
    for (i, log) in logs.iter().enumerate() {
        folder.file(format!("bad-{i}"), log);
    }
    for round in 0..6 {
        let new = folder.join(format!("new-{round}"));
        let one = |i: usize| {
            let bad = folder.join(format!("bad-{i}"));
            let ran = ran(tool().arg("mend").args([&bad, &new]));
            if ran.status != Some(0) {
                ran.failed(2, &["nothing was written: it is there already"]);
            }
            (ran.status == Some(0)).then_some(i)
        };
        let done: Vec<usize> = thread::scope(|scope| {
            let runs: Vec<_> = (0..6).map(|i| scope.spawn(move || one(i))).collect();
            let ends = runs.into_iter().map(|run| run.join().expect("an end"));
            ends.flatten().collect()
        });
        let [one] = done[..] else {
            panic!("{done:?} did");
        };
        assert!(fs::read(&new).expect("the new journal") == logs[one]);
    }
    let names = folder.names();
    assert!(!names.iter().any(|name| is_unfinished(name)), "{names:?}");
}

/// What another run left under the name that this one would take.
#[test]
fn what_is_unfinished_takes_no_name_that_is_taken() {
    let folder = Folder::new("mend-taken");
    folder.file("bad", &mixed_log());
    // The shell becomes the tool, and so has its number.
    let script = "for n in 1 2; do echo theirs >mellansko-mend-$$-$n.unfinished; done; exec \"$@\"";
    let mut shell = Command::new("sh");
    shell.args(["-c", script, "sh", env!("CARGO_BIN_EXE_mellansko")]);
    shell.args(["mend", "bad", "new"]).stdin(Stdio::null());
    let ran = ran(shell.current_dir(&*folder));
    assert_eq!((ran.status, ran.err.as_str()), (Some(1), ""));
    let left = folder.names();
    let left: Vec<&String> = left.iter().filter(|name| is_unfinished(name)).collect();
    assert_eq!(left.len(), 2);
    for name in left {
        assert_eq!(fs::read(folder.join(name)).expect("it"), b"theirs\n");
    }
    let new = fs::read(folder.join("new")).expect("the new journal");
    assert!(new == mended(&Found::in_log(&mixed_log())));
}

/// Another file gets the bad journal's name after it was looked at, and before it is opened.
#[test]
fn the_permissions_are_those_of_the_file_that_is_read() {
    let Some(place) = Place::new("mend-swapped") else {
        return;
    };
    let other = place.folder.file("other", &place.log);
    for (file, mode) in [(&place.folder.join("bad"), 0o644), (&other, 0o600)] {
        fs::set_permissions(file, Permissions::from_mode(mode)).expect("permissions");
    }
    assert_eq!(place.mend(&[("SWAP", "bad")]).status, Some(1));
    let new = fs::metadata(place.folder.join("new")).expect("the new journal");
    assert_eq!(new.permissions().mode() & 0o7777, 0o600);
    place.is_mended();
}

/// Until it is on the disk, the journal has a name of its own kind, in the folder of the new one.
#[test]
fn what_is_unfinished_is_named_so() {
    let folder = Folder::new("mend-killed");
    let Some(library) = faults(&folder) else {
        return;
    };
    folder.file("bad", &mixed_log());
    fs::create_dir(folder.join("to")).expect("a folder");
    let mut command = tool();
    command
        .args(["mend", "bad", "to/new"])
        .current_dir(&*folder);
    let mut command = with(&library, &[("DIE", "1")], command);
    let killed = command.stdout(Stdio::null()).stderr(Stdio::null()).status();
    assert_eq!(killed.expect("the tool").code(), None);
    let left = names_in(&folder.join("to"));
    assert!(left.len() == 1 && is_unfinished(&left[0]), "{left:?}");
    // It is in nobody's way.
    let mut again = tool();
    again.args(["mend", "bad", "to/new"]);
    assert_eq!(ran(again.current_dir(&*folder)).status, Some(1));
    assert_eq!(names_in(&folder.join("to")).len(), 2);
}

fn names_in(folder: &Path) -> Vec<String> {
    let entries = fs::read_dir(folder).expect("the folder");
    let name = |entry: fs::DirEntry| entry.file_name().into_string().expect("UTF-8");
    entries
        .map(|entry| name(entry.expect("an entry")))
        .collect()
}
