//! Outputs that are closed, full, or read in part.

#[macro_use]
mod common;

use common::damage::mixed_log;
use common::expect::written;
use common::files::Folder;
use common::{finish, ran, tool};
use std::fs::OpenOptions;
use std::io::{pipe, BufRead, BufReader, PipeWriter};
use std::path::Path;
use std::process::{Command, Stdio};

/// A run of each kind that has something to say on standard output.
fn speakers(folder: &Folder) -> Vec<Command> {
    folder.file("log", &mixed_log());
    let words: [&[&str]; 10] = [
        &["dump", "--follow", "log"],
        &["verify", "log"],
        &["verify", "log", "-"],
        &["dump", "log"],
        &["dump", "--limit", "4194305", "log"],
        &["map", "log"],
        &["cat", "log", "1"],
        &["--help"],
        &["dump", "--help"],
        &["--version"],
    ];
    let speaker = |words: &&[&str]| {
        let mut command = tool();
        command.args(*words).current_dir(&**folder);
        command
    };
    words.iter().map(speaker).collect()
}

/// The end of a pipe that nobody reads.
fn unread() -> PipeWriter {
    pipe().expect("a pipe").1
}

#[test]
fn a_closed_output_ends_it_without_a_word() {
    let folder = Folder::new("pipes-closed");
    for mut command in speakers(&folder) {
        command.stdout(unread()).stderr(Stdio::piped());
        let ran = finish(command.spawn().expect("the tool"), Vec::new());
        assert_eq!(ran.status, Some(2), "{command:?}");
        // What it complained of before, it may still say.
        let refused = command.get_args().any(|word| word == "4194305");
        assert_eq!(ran.err.is_empty(), !refused, "{command:?}: {}", ran.err);
    }
}

#[test]
fn an_output_that_is_read_in_part_ends_it_without_a_word() {
    let folder = Folder::new("pipes-head");
    // More lines than a pipe and a buffer hold.
    let log = written(&[[]; 40_000]);
    let file = folder.file("log", &log);
    let mut command = tool();
    command
        .arg("dump")
        .arg(&file)
        .stdout(Stdio::piped())
        .stderr(Stdio::piped());
    let mut child = command.spawn().expect("the tool");
    let mut output = BufReader::new(child.stdout.take().expect("its output"));
    let mut line = String::new();
    output.read_line(&mut line).expect("a line");
    assert_eq!(line, "R 0 7 0\n");
    drop(output);
    let ran = finish(child, Vec::new());
    assert_eq!((ran.status, ran.err.as_str()), (Some(2), ""));
}

#[test]
fn an_output_that_is_full_is_told() {
    let folder = Folder::new("pipes-full");
    for mut command in speakers(&folder) {
        let full = OpenOptions::new().write(true).open("/dev/full");
        command
            .stdout(full.expect("/dev/full"))
            .stderr(Stdio::piped());
        let ran = finish(command.spawn().expect("the tool"), Vec::new());
        assert_eq!(ran.status, Some(2), "{command:?}");
        ran.warned(&["standard output could not be written"]);
    }
}

#[test]
fn a_record_without_a_line_s_end_on_a_full_output_is_told() {
    let folder = Folder::new("pipes-short");
    let file = folder.file("log", &written(&[b"1"]));
    let full = OpenOptions::new().write(true).open("/dev/full");
    let mut command = tool();
    command.arg("cat").arg(file).arg("1");
    command
        .stdout(full.expect("/dev/full"))
        .stderr(Stdio::piped());
    let ran = finish(command.spawn().expect("the tool"), Vec::new());
    ran.failed(2, &["standard output could not be written"]);
}

/// Runs that complain, with the status that they end with.
fn complainers(folder: &Folder) -> Vec<(Vec<String>, i32)> {
    let name = |path: &Path| path.to_str().expect("UTF-8").to_string();
    let doubtful = name(&folder.file("log", &mixed_log()));
    let missing = name(&folder.join("missing"));
    let words = |words: &[&str]| words.iter().map(|word| word.to_string()).collect();
    vec![
        (words(&[]), 2),
        (words(&["nonsense"]), 2),
        (words(&["verify", &missing]), 2),
        (words(&["verify", &doubtful]), 1),
        (words(&["dump", "--limit", "4194305", &doubtful]), 2),
        (words(&["cat", &doubtful, "2"]), 1),
        (words(&["append", &doubtful]), 1),
        (words(&["append", &missing]), 2),
    ]
}

#[test]
fn closed_complaints_do_no_harm_and_the_status_stays() {
    let folder = Folder::new("pipes-deaf");
    for (words, status) in complainers(&folder) {
        let mut command = tool();
        command.args(&words).stdout(Stdio::piped()).stderr(unread());
        let unread = finish(command.spawn().expect("the tool"), Vec::new());
        assert_eq!(unread.status, Some(status), "{words:?}");

        let mut shell = Command::new("sh");
        shell.args([
            "-c",
            "exec \"$@\" 2>&-",
            "sh",
            env!("CARGO_BIN_EXE_mellansko"),
        ]);
        shell
            .args(&words)
            .stdin(Stdio::null())
            .env("MELLANSKO", "mellansko");
        let closed = ran(&mut shell);
        assert_eq!(closed.status, Some(status), "{words:?}");
        assert_eq!(closed.out, unread.out);
        // None of it ends up among the output.
        assert!(!closed.text().contains("mellansko: "), "{}", closed.text());
    }
}

#[test]
fn an_input_that_is_closed_is_empty() {
    let mut shell = Command::new("sh");
    shell.args([
        "-c",
        "exec \"$@\" <&-",
        "sh",
        env!("CARGO_BIN_EXE_mellansko"),
    ]);
    assert_eq!(ran(shell.args(["dump", "-"])).done().text(), "E clean\n");
}
