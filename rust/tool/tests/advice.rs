//! What the tool advises to type is run here as it stands, for files and tools of every name.

#[macro_use]
mod common;

use common::damage::mixed_log;
use common::expect::{dumped, mended, written, Found};
use common::files::{left_out, release, Folder};
use common::random::Random;
use common::{fed, finish, ran, tool, Ran};
use reference::log::{fragment, FIRST, FULL, LAST, MIDDLE};
use reference::samples;
use std::ffi::{OsStr, OsString};
use std::fs;
use std::os::unix::ffi::OsStrExt;
use std::os::unix::fs::symlink;
use std::path::{Path, PathBuf};
use std::process::{Command, Stdio};

const NAMES: [&[u8]; 20] = [
    b"race.log",
    b"two words.log",
    b"it's.log",
    b"-dash.log",
    b"--all",
    b"$HOME `x` \"q\"",
    b"*",
    b"~",
    b"#1",
    b"a&b;c|d>e<f(g)",
    b"back\\slash",
    b"!bang",
    b"x=1",
    b"{a,b}[c]?",
    b"\xc3\x85re.log",
    b"a\xc2\xa0b",
    b"line\nbreak.log",
    b"-\x1b[2J'\\ \x01",
    b"J\xe4mtland",
    b"\xe2\x80\xaeturned",
];

/// Runs a line in a folder, by the plainest shell that takes its quotes. None if there is no such.
fn typed(line: &str, folder: &Path, input: &[u8]) -> Option<Ran> {
    let shell = if line.contains("$'") { "bash" } else { "sh" };
    let mut command = Command::new(shell);
    command.args(["-c", line]).current_dir(folder);
    command.env_remove("MELLANSKO").env_remove("COLUMNS");
    command.stdin(Stdio::piped());
    command.stdout(Stdio::piped()).stderr(Stdio::piped());
    match command.spawn() {
        Ok(child) => Some(finish(child, input.to_vec())),
        Err(_) => {
            left_out(&format!("what takes {shell}"));
            None
        }
    }
}

/// The lines that can be typed: they are indented, and nothing else is.
fn commands(ran: &Ran) -> Vec<&str> {
    let lines = ran.lines().into_iter();
    lines.filter_map(|line| line.strip_prefix("    ")).collect()
}

/// The only file in a folder that has none of these names.
fn path_of_other(folder: &Path, names: &[&OsStr]) -> PathBuf {
    let files = fs::read_dir(folder).expect("the folder");
    let files = files.map(|file| file.expect("a file").path());
    let is_other = |file: &PathBuf| !names.iter().any(|name| file.file_name() == Some(name));
    let mut others = files.filter(is_other);
    let other = others.next().expect("another file");
    assert_eq!(others.next(), None);
    other
}

/// What is in it.
fn only_other(folder: &Path, names: &[&OsStr]) -> Vec<u8> {
    fs::read(path_of_other(folder, names)).expect("it")
}

/// The tool by a name of its own, in a folder.
fn called(name: &OsStr, folder: &Path) -> Command {
    let mut command = Command::new(name);
    command.current_dir(folder).stdin(Stdio::null());
    command.env_remove("MELLANSKO").env_remove("COLUMNS");
    command
}

fn own_name() -> &'static OsStr {
    OsStr::new(env!("CARGO_BIN_EXE_mellansko"))
}

fn no_control(text: &str) {
    let tricks = |c: char| (c.is_control() && c != '\n') || c == '\u{202e}';
    assert!(!text.contains(tricks), "{text:?}");
}

#[test]
fn what_verify_advises_can_be_typed_whatever_the_file_s_name() {
    let log = mixed_log();
    let found = Found::in_log(&log);
    for name in NAMES {
        let folder = Folder::new("advice-names");
        let name = OsStr::from_bytes(name);
        folder.file(name, &log);
        let ran = ran(called(own_name(), &folder).args(["verify", "--"]).arg(name));
        no_control(ran.text());
        let ran_before = ran.text();
        let commands = commands(&ran);
        let [dump, before, after, last, mend, new] = commands[..] else {
            panic!("{commands:?}");
        };
        let Some(dump) = typed(dump, &folder, b"") else {
            continue;
        };
        assert_eq!(dump.text(), dumped(&log, 4_194_304), "{name:?}");
        for (command, record) in [(before, 0), (after, 1), (last, 1)] {
            let ran = typed(command, &folder, b"").expect("a shell");
            assert!(ran.out == found.records[record].1, "{command}");
            // What that says can be typed too.
            no_control(&ran.err);
            let (_, verify) = ran.err.split_once("To see where: ").expect("advice");
            let again = typed(verify, &folder, b"").expect("a shell");
            assert_eq!(again.text(), ran_before, "{verify}");
        }
        typed(new, &folder, b"new").expect("a shell").done();
        assert_eq!(only_other(&folder, &[name]), written(&[b"new"]));
        fs::remove_file(path_of_other(&folder, &[name])).expect("it");
        // Which ends in a doubt, since not all can be mended.
        let ran = typed(mend, &folder, b"").expect("a shell");
        assert_eq!(ran.status, Some(1), "{mend}: {}", ran.err);
        no_control(ran.text());
        assert!(only_other(&folder, &[name]) == mended(&found), "{mend}");
        assert_eq!(fs::read(folder.join(name)).expect("the old file"), log);
    }
}

#[test]
fn what_append_advises_can_be_typed_and_names_a_file_that_is_not_there() {
    for name in NAMES {
        let folder = Folder::new("advice-append");
        let name = OsStr::from_bytes(name);
        folder.file(name, &written(&["first", "second"])[..15]);
        for round in 1..4 {
            let ran = fed(
                called(own_name(), &folder).args(["append", "--"]).arg(name),
                b"x",
            );
            assert_eq!(ran.status, Some(1));
            no_control(&ran.err);
            let lines: Vec<&str> = ran.err.lines().collect();
            let (_, new) = lines[1]
                .split_once("to begin another journal: ")
                .expect("advice");
            let (_, verify) = lines[2]
                .split_once("to see what is in doubt: ")
                .expect("advice");
            let (_, mend) = lines[3].split_once("is missing: ").expect("advice");
            let Some(verified) = typed(verify, &folder, b"") else {
                break;
            };
            assert!(verified.text().contains("IN DOUBT"), "{verify}");
            typed(new, &folder, b"new").expect("a shell").done();
            assert_eq!(typed(mend, &folder, b"").expect("a shell").status, Some(1));
            assert_eq!(folder.names().len(), 2 * round + 1, "{new}, {mend}");
        }
    }
}

#[test]
fn to_begin_a_journal_and_to_add_to_it_can_be_typed() {
    for name in NAMES {
        let folder = Folder::new("advice-begin");
        let name = OsStr::from_bytes(name);
        let append = |words: &[&str]| {
            let mut command = called(own_name(), &folder);
            fed(command.arg("append").args(words).arg("--").arg(name), b"x")
        };
        let advised = |ran: &Ran, lead: &str| {
            let (_, command) = ran.err.split_once(lead).expect(lead);
            typed(command, &folder, b"1").is_some_and(|ran| ran.status == Some(0))
        };
        if advised(&append(&[]), "to begin a new journal: ") {
            assert!(advised(&append(&["--new"]), "To add to it: "));
            let log = fs::read(folder.join(name)).expect("the journal");
            assert_eq!(log, written(&[b"1", b"1"]));
        }
    }
}

/// A name that is taken, that of the bad journal too, whatever either is.
#[test]
fn to_mend_into_another_file_can_be_typed() {
    let log = mixed_log();
    let bytes = mended(&Found::in_log(&log));
    for (i, name) in NAMES.into_iter().enumerate() {
        let folder = Folder::new("advice-mend");
        let bad = OsStr::from_bytes(name);
        let other = OsStr::from_bytes(NAMES[(i + 3) % NAMES.len()]);
        folder.file(bad, &log);
        folder.file(other, b"other");
        for taken in [bad, other] {
            let mut command = called(own_name(), &folder);
            let ran = ran(command.args(["mend", "--"]).arg(bad).arg(taken));
            no_control(&ran.err);
            let (_, advice) = ran
                .err
                .split_once("To write to another name: ")
                .expect(&ran.err);
            let Some(ran) = typed(advice, &folder, b"") else {
                break;
            };
            assert_eq!(ran.status, Some(1), "{advice}: {}", ran.err);
            assert!(only_other(&folder, &[bad, other]) == bytes, "{advice}");
            fs::remove_file(path_of_other(&folder, &[bad, other])).expect("it");
        }
        assert!(fs::read(folder.join(bad)).expect("the bad journal") == log);
        assert_eq!(fs::read(folder.join(other)).expect("the other"), b"other");
    }
}

/// Names of any bytes that a file may have.
#[test]
fn a_name_of_any_bytes_can_be_typed() {
    let mut random = Random::new();
    println!("{random}");
    let log = mixed_log();
    for _ in 0..40 {
        let folder = Folder::new("advice-random");
        let length = 1 + random.below(20);
        let mut name = random.bytes(length);
        name.iter_mut()
            .filter(|byte| matches!(**byte, 0 | b'/'))
            .for_each(|byte| *byte = b'\'');
        // These name folders.
        if matches!(&name[..], b"." | b"..") {
            continue;
        }
        let path = folder.file(OsStr::from_bytes(&name), &log);
        let ran = ran(called(own_name(), &folder).arg("verify").arg(&path));
        no_control(ran.text());
        let Some(dump) = typed(commands(&ran)[0], &folder, b"") else {
            return;
        };
        assert_eq!(dump.text(), dumped(&log, 4_194_304), "{name:?}");
    }
}

#[test]
fn the_tool_is_named_as_it_was_called() {
    let folder = Folder::new("advice-called");
    folder.file("log", &samples::torn());
    fs::create_dir(folder.join("my tools")).expect("a folder");
    for name in ["my tools/it's mellansko", "./mellansko", "$x"] {
        let path = folder.join(name);
        symlink(own_name(), &path).expect("a link");
        // By its own name, and by that of a script which starts it.
        let mut scripted = called(own_name(), &folder);
        scripted.env("MELLANSKO", &path);
        let runs = [called(path.as_os_str(), &folder), scripted];
        for mut command in runs {
            let ran = ran(command.args(["verify", "log"]));
            let commands = commands(&ran);
            let dump = typed(commands[0], &folder, b"").expect("a shell");
            assert_eq!(dump.text(), dumped(&samples::torn(), 4_194_304));
        }
        let mut wrong = called(path.as_os_str(), &folder);
        let wrong = self::ran(wrong.arg("nonsense"));
        let (_, help) = wrong.err.split_once(": see ").expect("advice");
        assert_eq!(
            typed(help, &folder, b"").expect("a shell").done().text(),
            by(&path, &["--help"])
        );
        let wrong = self::ran(called(path.as_os_str(), &folder).args(["dump", "--nonsense"]));
        let (_, help) = wrong.err.split_once(". See ").expect("advice");
        assert_eq!(
            typed(help, &folder, b"").expect("a shell").done().text(),
            by(&path, &["dump", "--help"])
        );
    }
}

fn by(tool: &Path, words: &[&str]) -> String {
    let mut command = Command::new(tool);
    command
        .args(words)
        .env_remove("MELLANSKO")
        .env_remove("COLUMNS");
    ran(&mut command).done().text().into()
}

/// The script of `cat --help`, line by line as it is shown, writes what the reference reads.
#[test]
fn the_loop_of_cat_s_help_can_be_typed() {
    let log = mixed_log();
    let found = Found::in_log(&log);
    for (name, file) in [
        ("mellansko", "race.log"),
        ("it's mellansko", "two words"),
        ("m", "-dash"),
    ] {
        let folder = Folder::new("advice-loop");
        let path = folder.join(name);
        symlink(own_name(), &path).expect("a link");
        folder.file(file, &log);
        let help = by(&path, &["cat", "--help"]);
        let lines = help.lines().filter_map(|line| line.strip_prefix("    "));
        let lines: Vec<String> = lines.map(String::from).collect();
        assert_eq!(lines[0], "file=race.log");
        let script = lines
            .join("\n")
            .replacen("race.log", &format!("'{file}'"), 1);
        // Each record is given, with the warning that some bytes are in doubt.
        let ran = typed(&script, &folder, b"").expect("a shell");
        assert_eq!(ran.err, "");
        let warnings = fs::read_to_string(folder.join("warnings")).expect("the warnings");
        assert_eq!(warnings.lines().count(), found.records.len(), "{warnings}");
        for (i, (_, record)) in found.records.iter().enumerate() {
            let written = fs::read(folder.join("records").join((i + 1).to_string()));
            assert!(written.expect("a record") == *record, "record {}", i + 1);
        }
        let files = fs::read_dir(folder.join("records")).expect("the folder");
        assert_eq!(files.count(), found.records.len());
    }
}

#[test]
fn the_beginning_of_what_is_too_long_can_be_judged() {
    let folder = Folder::new("advice-long");
    for name in ["two words", "-dash"] {
        folder.zeros(name, 1_073_741_825);
        let ran = ran(called(own_name(), &folder).args(["verify", "--", name]));
        let (_, head) = ran.err.split_once("run: ").expect("advice");
        let ran = typed(head, &folder, b"").expect("a shell");
        assert_eq!((ran.status, ran.err.as_str()), (Some(1), ""));
        assert!(ran.text().contains("all of its 1 073 741 824 bytes"));
    }
}

/// A log, what is said of it, and what is not.
type Case = (Vec<u8>, &'static [&'static str], &'static [&'static str]);

fn cases() -> [Case; 8] {
    const LOST: &str = "may have been replaced";
    const TORN: &str = "when the power went";
    const WHAT: &str = "is it a journal?";
    const LONG: &str = "A record of more than 4 194 304 bytes may be sound";
    const MEND: &str = "which will not show that anything is missing:     mellansko mend ";
    let orphan = fragment(LAST, b"orphan");
    let sound = fragment(FULL, b"sound");
    let gap = [&sound[..], &orphan, &sound].concat();
    let torn = [&sound[..], &sound[..5]].concat();
    let both = [&gap[..], &sound[..5]].concat();
    let text = b"%PDF-1.4 and more".repeat(9);
    let first = fragment(FIRST, &[1; 32_761]);
    let long = [first, fragment(MIDDLE, &[1; 32_761]).repeat(128)].concat();
    [
        (gap, &[LOST, MEND], &[TORN, WHAT, "append"]),
        (
            torn,
            &[TORN, "begin a new journal", "append --new", MEND],
            &[LOST, WHAT],
        ),
        (both, &[LOST, TORN, "append --new", MEND], &[WHAT]),
        (
            text,
            &[WHAT, "\"%PDF-1.\""],
            &[LOST, "append", "cat ", "mend"],
        ),
        (orphan, &[WHAT, "another copy"], &[LOST, TORN, "mend"]),
        (
            sound[..5].to_vec(),
            &[WHAT, TORN],
            &[LOST, "append", "mend"],
        ),
        (vec![0; 100], &[WHAT, "\\x00\\x00"], &[LOST, TORN]),
        (long, &[LONG], &[WHAT, LOST, TORN, "mend"]),
    ]
}

#[test]
fn what_to_do_depends_on_what_was_found() {
    for (log, says, not) in cases() {
        let folder = Folder::new("advice-case");
        let ran = run!("verify", folder.file("log", &log));
        assert_eq!(ran.status, Some(1));
        let begin = "\n\nWhat to do now: keep the file as it is.\n";
        let (_, advice) = ran.text().split_once(begin).expect("advice");
        let advice = advice.replace('\n', " ");
        for said in says {
            assert!(advice.contains(said), "{said:?} is not in: {advice}");
        }
        for said in not {
            assert!(!advice.contains(said), "{said:?} is in: {advice}");
        }
    }
}

/// What came over a pipe is in no file that could be mended.
#[test]
fn of_a_pipe_no_mending_is_advised() {
    let folder = Folder::new("advice-pipe");
    let log = mixed_log();
    let fifo = folder.join("fifo");
    let made = Command::new("mkfifo").arg(&fifo).status();
    assert!(made.expect("mkfifo").success());
    let from_fifo = std::thread::scope(|scope| {
        scope.spawn(|| fs::write(&fifo, &log).expect("the pipe"));
        let ran = run!("verify", &fifo);
        release(&fifo);
        ran
    });
    for ran in [from_fifo, feed!(&log; "verify", "-")] {
        assert!(ran.text().contains("What to do now"), "{}", ran.text());
        assert!(!ran.text().contains("mend"), "{}", ran.text());
    }
}

#[test]
fn of_several_each_that_is_in_doubt_is_named_up_to_five() {
    let folder = Folder::new("advice-several");
    let torn = samples::torn();
    for doubtful in [1, 5, 6, 9] {
        let names: Vec<OsString> = (0..doubtful).map(|i| format!("log {i}").into()).collect();
        for name in &names {
            folder.file(name, &torn);
        }
        folder.file("sound", &samples::clean().log);
        let mut command = tool();
        command.arg("verify").args(&names).arg("sound");
        let ran = ran(command.current_dir(&*folder));
        let commands = commands(&ran);
        assert_eq!(commands.len(), doubtful.min(5));
        assert_eq!(commands[0], "mellansko verify 'log 0'");
        let more = ran
            .text()
            .contains(&format!("with the other {}", doubtful.saturating_sub(5)));
        assert_eq!(more, doubtful > 5, "{}", ran.text());
    }
}
