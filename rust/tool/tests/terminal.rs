//! What the tool shows on a terminal: progress while it takes long, colours, and a prompt.

#[macro_use]
mod common;

use common::damage::mixed_log;
use common::expect::{count, dumped, numbers, without_codes, written};
use common::files::{release, Folder};
use common::preload::{faults, with};
use common::terminal::{is_there, shown, terminal, terminal_of, without_progress, Showing, ERASE};
use common::{fed, finish, tool, Ran};
use reference::log::{fragment, LAST};
use std::fs::{self, File};
use std::io::Write;
use std::path::Path;
use std::process::{Command, Stdio};
use std::thread;
use std::time::Duration;

/// Bytes that come in pieces, for longer than the tool stays quiet.
fn slowly(to: &mut impl Write, bytes: &[u8]) {
    for piece in bytes.chunks(bytes.len().div_ceil(8)) {
        to.write_all(piece).expect("it is read");
        thread::sleep(Duration::from_millis(90));
    }
}

/// The same, and then byte by byte until something is shown: a tool that began late is quiet for
/// longer.
fn until_shown(mut to: impl Write, bytes: &[u8], showing: &Showing) {
    let (most, mut rest) = bytes.split_at(bytes.len() / 8 * 7);
    slowly(&mut to, most);
    while !showing.has_begun() {
        let (next, after) = rest.split_at(1);
        slowly(&mut to, next);
        rest = after;
    }
    to.write_all(rest).expect("it is read");
}

/// Runs it on standard input that comes slowly, and gives what a terminal shows of its complaints.
fn on_slow_input(words: &[&str], log: &[u8]) -> (Ran, String) {
    let (near, far) = terminal();
    let showing = shown(near);
    let mut command = tool();
    command.args(words).stdin(Stdio::piped());
    command.stdout(Stdio::piped()).stderr(far);
    let mut child = command.spawn().expect("the tool");
    // So that the tool alone holds its end.
    drop(command);
    until_shown(child.stdin.take().expect("its input"), log, &showing);
    let ran = finish(child, Vec::new());
    (ran, showing.all())
}

#[test]
fn slow_reading_shows_how_far_it_is_and_leaves_nothing_behind() {
    if !is_there() {
        return;
    }
    let log = mixed_log();
    for words in [
        &["verify", "-"][..],
        &["dump", "-"],
        &["map", "-"],
        &["cat", "-", "1"],
    ] {
        let (ran, showing) = on_slow_input(words, &log);
        let plain = fed(tool().args(words), &log);
        assert_eq!(
            (ran.status, &ran.out),
            (plain.status, &plain.out),
            "{words:?}"
        );
        let lines: Vec<&str> = showing.split(ERASE).collect();
        // Nothing before the first, and nothing left after the last but what it has to say.
        let [before, lines @ .., after] = &lines[..] else {
            panic!("{showing:?}");
        };
        // That is wrapped.
        let said: Vec<&str> = after.split_whitespace().collect();
        let plainly: Vec<&str> = plain.err.split_whitespace().collect();
        assert_eq!((*before, said), ("", plainly), "{showing:?}");
        assert!(!lines.is_empty(), "{words:?} shows nothing");
        for line in lines {
            assert!(line.starts_with("standard input: "), "{line:?}");
            assert!(
                !line.contains(char::is_control) && line.len() < 60,
                "{line:?}"
            );
        }
    }
}

/// With lines and progress on one terminal each line has a row of its own, and no progress is left.
#[test]
fn lines_that_come_meanwhile_are_not_mixed_with_progress() {
    if !is_there() {
        return;
    }
    let log = mixed_log();
    let (near, far) = terminal();
    let showing = shown(near);
    let mut command = tool();
    command.args(["dump", "-"]).stdin(Stdio::piped());
    command.stdout(far.try_clone().expect("a terminal"));
    let mut child = command.stderr(far).spawn().expect("the tool");
    drop(command);
    let mut input = child.stdin.take().expect("its input");
    // So often that some of it is shown between the lines.
    log.chunks(6_000).for_each(|piece| {
        input.write_all(piece).expect("it is read");
        thread::sleep(Duration::from_millis(40));
    });
    drop(input);
    finish(child, Vec::new());
    let showing = showing.all();
    assert!(showing.contains(" read"), "{showing:?}");
    let rows = without_progress(&showing);
    assert_eq!(rows, dumped(&log, 4_194_304), "{showing:?}");
}

#[test]
fn a_long_name_keeps_progress_on_one_row() {
    if !is_there() {
        return;
    }
    let folder = Folder::new("terminal-name");
    let fifo = folder.join("Jämtland-".repeat(20));
    assert!(Command::new("mkfifo")
        .arg(&fifo)
        .status()
        .expect("mkfifo")
        .success());
    let (near, far) = terminal();
    let showing = shown(near);
    let mut command = tool();
    command
        .arg("verify")
        .arg(&fifo)
        .stdout(Stdio::piped())
        .stderr(far);
    let child = command.spawn().expect("the tool");
    drop(command);
    thread::scope(|scope| {
        scope.spawn(|| {
            let to = File::options().write(true).open(&fifo).expect("the pipe");
            until_shown(to, &written(&vec![[1; 10]; 100]), &showing);
        });
        finish(child, Vec::new());
        release(&fifo);
    });
    let showing = showing.all();
    assert!(showing.contains("land-: "), "{showing:?}");
    for line in showing.split(ERASE) {
        assert!(line.chars().count() < 60, "{line:?}");
    }
}

/// Runs it in a folder on a disk that is slow, and gives what a terminal of 60 columns shows of its
/// complaints.
fn on_slow_disk(library: &Path, words: &[&str], folder: &Folder) -> (Ran, String) {
    let (near, far) = terminal_of(60, 24);
    let showing = shown(near);
    let mut command = with(library, &[("SLOW", "40")], tool());
    command.args(words).current_dir(&**folder);
    command.stdin(Stdio::null()).stdout(Stdio::piped());
    let child = command.stderr(far).spawn().expect("the tool");
    // So that the tool alone holds its end.
    drop(command);
    let ran = finish(child, Vec::new());
    (ran, showing.all())
}

/// How many bytes of so many had been read, by each line that says so.
fn read_by(lines: &[&&str], all: usize) -> Vec<usize> {
    let far = format!(" of {} read", count(all, "byte"));
    let read = |line: &&&str| line.strip_suffix(&far).map(str::to_string);
    let figure = |line: String| numbers(line.rsplit(": ").next().expect("figures"))[0];
    lines.iter().filter_map(read).map(figure).collect()
}

/// How long a file is is known. Its name is cut so that all of it stays on one row.
#[test]
fn of_a_file_it_shows_how_much_of_it_is_read() {
    let folder = Folder::new("terminal-file");
    let Some(library) = is_there().then(|| faults(&folder)).flatten() else {
        return;
    };
    let sound = written(&vec![[7; 32_761]; 20]);
    let orphans = [&sound[..], &fragment(LAST, b"").repeat(25)].concat();
    let name = "a-name-of-far-more-than-thirty-characters.log";
    for (words, log, status) in [
        (&["verify", name][..], &sound, 0),
        (&["verify", "--all", name], &orphans, 1),
        (&["dump", name], &sound, 0),
        (&["map", name], &sound, 0),
        (&["cat", name, "20"], &sound, 0),
        (&["append", name], &sound, 0),
        (&["mend", name, "new"], &sound, 0),
    ] {
        folder.file(name, log);
        let (ran, showing) = on_slow_disk(&library, words, &folder);
        assert_eq!(ran.status, Some(status), "{words:?}");
        let lines: Vec<&str> = showing.split(ERASE).collect();
        let ["", lines @ .., ""] = &lines[..] else {
            panic!("{words:?}: {showing:?}");
        };
        // With --all there are two readings that are shown, and nothing between them.
        let lines: Vec<&&str> = lines.iter().filter(|line| !line.is_empty()).collect();
        let read = read_by(&lines, log.len());
        let readings = 1 + read.windows(2).filter(|two| two[0] > two[1]).count();
        let expected = if words[1] == "--all" { 2 } else { 1 };
        assert_eq!((read.len(), readings), (lines.len(), expected), "{lines:?}");
        assert!(read.iter().all(|&read| read <= log.len()), "{lines:?}");
        for line in lines {
            assert!(line.starts_with("...") && line.contains(".log: "), "{line}");
            assert!(line.chars().count() < 60, "{line}");
        }
    }
}

#[test]
fn nothing_is_shown_where_nobody_watches() {
    let log = mixed_log();
    let mut command = tool();
    command.args(["map", "-"]).stdin(Stdio::piped());
    command.stdout(Stdio::piped()).stderr(Stdio::piped());
    let mut child = command.spawn().expect("the tool");
    slowly(&mut child.stdin.take().expect("its input"), &log);
    let ran = finish(child, Vec::new());
    assert_eq!((ran.status, ran.err.as_str()), (Some(1), ""));
    assert_eq!(ran.out, fed(tool().args(["map", "-"]), &log).out);
}

/// What a terminal shows of a map.
fn drawn(command: &mut Command, log: &[u8]) -> String {
    let (near, far) = terminal();
    let showing = shown(near);
    command.arg("-").stdin(Stdio::piped());
    command.stdout(far).stderr(Stdio::piped());
    let child = command.spawn().expect("the tool");
    command.stdout(Stdio::null());
    finish(child, log.to_vec());
    showing.all().replace("\r\n", "\n")
}

#[test]
fn a_terminal_gets_colours_unless_they_are_unwanted() {
    if !is_there() {
        return;
    }
    let log = mixed_log();
    let map = || {
        let mut command = tool();
        command.arg("map").env("TERM", "xterm");
        command
    };
    let plain = drawn(map().args(["--color", "never"]), &log);
    assert!(!plain.contains('\x1b'), "{plain}");
    for command in [&mut map(), map().args(["--color", "auto"])] {
        let colourful = drawn(command, &log);
        assert!(colourful.contains("\x1b["), "{colourful}");
        assert_eq!(without_codes(&colourful), plain);
    }
    for command in [map().env("NO_COLOR", "1"), map().env("TERM", "dumb")] {
        assert_eq!(drawn(command, &log), plain);
    }
}

#[test]
fn a_record_can_be_typed() {
    if !is_there() {
        return;
    }
    let folder = Folder::new("terminal-typed");
    let file = folder.join("log");
    let (mut near, far) = terminal();
    let mut command = tool();
    command.args(["append", "--new"]).arg(&file).stdin(far);
    command.stdout(Stdio::piped()).stderr(Stdio::piped());
    let child = command.spawn().expect("the tool");
    drop(command);
    near.write_all(b"LW10-1 0.9137\n\x04")
        .expect("the terminal");
    let ran = finish(child, Vec::new());
    ran.complained(0, &["Ctrl-D"]);
    assert_eq!(
        fs::read(&file).expect("the journal"),
        written(&[b"LW10-1 0.9137\n"])
    );
    // A name that is wrong shows before anything is typed.
    let (_near, far) = terminal();
    let mut command = tool();
    command.args(["append", "--new"]).arg(&file).stdin(far);
    common::ran(&mut command).failed(2, &["already"]);
    // So does a doubt.
    let doubtful = folder.file("doubtful", b"doubt");
    let (_near, far) = terminal();
    let mut command = tool();
    command.arg("append").arg(&doubtful).stdin(far);
    let ran = common::ran(&mut command);
    assert_eq!((ran.status, ran.text()), (Some(1), ""));
    assert!(!ran.err.contains("Ctrl-D"), "{}", ran.err);
    ran.warned(&["nothing was appended", "IN DOUBT"]);
}

#[test]
fn nothing_is_shown_into_what_is_being_typed() {
    if !is_there() {
        return;
    }
    let folder = Folder::new("terminal-typing");
    folder.file("log", b"");
    for words in [["append", "log"], ["verify", "-"], ["dump", "-"]] {
        let (mut near, far) = terminal();
        let showing = shown(near.try_clone().expect("a terminal"));
        let mut command = tool();
        command.args(words).current_dir(&*folder);
        command.stdin(far.try_clone().expect("a terminal"));
        command.stdout(Stdio::piped()).stderr(far);
        let child = command.spawn().expect("the tool");
        drop(command);
        // However long that takes.
        slowly(&mut near, b"one\ntwo\nthree\nfour\n\x04");
        finish(child, Vec::new());
        let showing = showing.all();
        assert!(
            showing.contains("Ctrl-D") && !showing.contains(ERASE),
            "{showing:?}"
        );
    }
}

#[test]
fn a_journal_from_the_terminal_is_asked_for() {
    if !is_there() {
        return;
    }
    for words in [
        &["verify", "-"][..],
        &["dump", "-"],
        &["map", "-"],
        &["cat", "-", "1"],
    ] {
        let (mut near, far) = terminal();
        let mut command = tool();
        command.args(words).stdin(far);
        command.stdout(Stdio::piped()).stderr(Stdio::piped());
        let child = command.spawn().expect("the tool");
        drop(command);
        near.write_all(b"no journal\n\x04").expect("the terminal");
        let ran = finish(child, Vec::new());
        let first = ran.err.lines().next().expect("a prompt");
        assert_eq!(
            first,
            "mellansko: reading a journal from the terminal; end it with Ctrl-D on a line of its own"
        );
    }
    // Nobody is asked where a file or a pipe has it.
    assert_eq!(
        fed(tool().args(["verify", "-"]), &written(&["1"]))
            .done()
            .err,
        ""
    );
}
