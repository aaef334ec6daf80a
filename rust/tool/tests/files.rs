//! Files of every kind, under names of every kind.

#[macro_use]
mod common;

use common::expect::{blank_blocks, dumped, written};
use common::files::{as_nobody, in_advice, release, Folder};
use common::{ran, tool, tool_within, Ran};
use reference::log::{BLOCK, LONGEST_LOG};
use std::ffi::OsString;
use std::fs::{self, File};
use std::os::unix::ffi::OsStringExt;
use std::os::unix::fs::{symlink, PermissionsExt};
use std::path::{Path, PathBuf};
use std::process::Command;

/// A run of each command that reads.
fn readers(file: &Path) -> [Command; 4] {
    ["verify", "dump", "map", "cat"].map(|name| {
        let mut command = tool();
        command.arg(name).arg(file);
        if name == "cat" {
            command.arg("1");
        }
        command
    })
}

fn each_fails(file: &Path, says: &[&str]) {
    for mut command in readers(file) {
        ran(&mut command).failed(2, says);
    }
}

#[test]
fn what_can_not_be_read_is_named_with_the_reason() {
    let folder = Folder::new("files-unread");
    each_fails(
        &folder.join("missing"),
        &["missing", "could not be read", "no such file"],
    );
    each_fails(&folder, &["files-unread", "could not be read", "folder"]);
    folder.file("times", b"");
    each_fails(&folder.join("times").join("x"), &["times/x", "no folder"]);
    let loop_ = folder.join("loop");
    symlink("loop", &loop_).expect("a link");
    each_fails(&loop_, &["loop", "could not be read"]);
}

#[test]
fn a_file_without_permission_is_named_with_the_reason() {
    let folder = Folder::new("files-permission");
    let file = folder.file("times", &written(&[b"1"]));
    fs::set_permissions(&file, fs::Permissions::from_mode(0o222)).expect("permissions");
    for mut command in readers(&file) {
        let Some(command) = as_nobody(&mut command) else {
            return;
        };
        ran(command).failed(2, &["times", "could not be read", "permission is denied"]);
    }
}

#[test]
fn an_empty_file_shows_no_damage_and_has_no_record() {
    let folder = Folder::new("files-empty");
    let file = folder.file("times", b"");
    let verified = run!("verify", &file);
    let lines = verified.done().lines();
    assert!(lines[0].contains("times: no damage found") && lines[0].contains("empty"));
    assert_eq!(run!("dump", &file).done().text(), "E clean\n");
    run!("cat", &file, "1").failed(2, &["times", "no record 1", "0 records"]);
}

#[test]
fn a_file_one_byte_too_long_is_refused() {
    let folder = Folder::new("files-longest");
    let file = folder.zeros("times", 1_073_741_825);
    for command in readers(&file) {
        refuses(command, &file, "times");
    }
}

fn is_dump(command: &Command) -> bool {
    command.get_args().any(|word| word == "dump")
}

/// As too long, of which the dump says so on standard output too.
fn refuses(mut command: Command, file: &Path, name: &str) {
    let dump = is_dump(&command);
    let ran = ran(&mut command);
    assert_eq!(ran.text(), if dump { "X 1\n" } else { "" });
    let file = in_advice(file);
    let advice = format!("head -c 1073741824 {file} | mellansko verify -");
    ran.complained(
        2,
        &[
            name,
            "longer than 1 073 741 824 bytes",
            "refusal 1",
            &advice,
        ],
    );
}

/// Of what never ends no more is read than it takes to refuse it.
#[test]
fn an_endless_file_is_refused_in_little_memory() {
    let zeros = Path::new("/dev/zero");
    let readers = readers(zeros).into_iter();
    readers
        .filter(|command| !is_dump(command))
        .for_each(|command| refuses(command, zeros, "/dev/zero"));
    // Its length is not known before, so what is certain is listed by then.
    let ran_dump = run!("dump", zeros);
    assert!(ran_dump.text() == blank_blocks(0..LONGEST_LOG / BLOCK) + "X 1\n");
    ran_dump.complained(
        2,
        &["/dev/zero", "longer than 1 073 741 824 bytes", "refusal 1"],
    );
    let folder = Folder::new("files-endless");
    folder.file("log", b"");
    for (words, says) in [
        (["verify", "/dev/zero"], ["/dev/zero", "refusal 1"]),
        (["verify", "-"], ["standard input", "refusal 1"]),
        (["append", "log"], ["log", "refusal 3"]),
    ] {
        let mut command = tool_within(64);
        command.stdin(File::open(zeros).expect("/dev/zero"));
        ran(command.args(words).current_dir(&*folder)).failed(2, &says);
    }
}

#[test]
fn a_pipe_is_read_like_a_file() {
    let folder = Folder::new("files-pipe");
    let fifo = folder.join("fifo");
    assert!(Command::new("mkfifo")
        .arg(&fifo)
        .status()
        .expect("mkfifo")
        .success());
    let log = written(&[b"1", b"2"]);
    std::thread::scope(|scope| {
        scope.spawn(|| fs::write(&fifo, &log).expect("the pipe"));
        let ran = run!("dump", &fifo);
        release(&fifo);
        assert_eq!(ran.done().text(), dumped(&log, 4_194_304));
    });
}

/// The standard outputs and errors of every command on a file, as one text.
fn all_said(file: &Path) -> Vec<Ran> {
    let mut said: Vec<Ran> = readers(file).iter_mut().map(ran).collect();
    said.push(ran(tool().arg("verify").args([file, file])));
    said.push(ran(tool().args(["dump", "--limit", "4194305"]).arg(file)));
    said.push(ran(tool().arg("append").arg(file)));
    said.push(ran(tool().arg("mend").args([file, file])));
    let mut mended = file.as_os_str().to_os_string();
    mended.push(" mended");
    said.push(ran(tool().arg("mend").arg(file).arg(mended)));
    said.push(ran(tool().arg("append").arg("--new").arg(file)));
    said
}

#[test]
fn a_name_with_spaces_or_not_in_utf_8_is_a_name_like_others() {
    let folder = Folder::new("files-names");
    let log = written(&[b"1"]);
    let latin_1 = OsString::from_vec(b"J\xe4mtland".to_vec());
    for name in [
        "two words".into(),
        " ".into(),
        "Åre".into(),
        "*?$(x)".into(),
        latin_1,
    ] {
        let file = folder.file(&name, &log);
        let verified = run!("verify", &file);
        let shown = format!("{}: no damage found", name.to_string_lossy());
        assert!(
            verified.done().text().contains(&shown),
            "{}",
            verified.text()
        );
        assert_eq!(run!("dump", &file).done().text(), "R 0 8 1\nE clean\n");
        assert_eq!(run!("cat", &file, "1").done().out, b"1");
        feed!(b"2"; "append", &file).done();
        assert_eq!(fs::read(&file).expect("the file"), written(&[b"1", b"2"]));
    }
}

/// Neither a line of its own, nor codes that a terminal obeys.
#[test]
fn a_name_forges_no_line() {
    let folder = Folder::new("files-forged");
    let forged = "No damage found in any of 1 journals.";
    let names = [
        format!("x\n{forged}\ny"),
        format!("x\r{forged}\ry"),
        format!("x\x1b[2K\x1b[1A{forged}\u{9b}1m"),
        format!("x\u{2028}{forged}\u{202e}\u{2066}\u{200f}"),
    ];
    for name in names {
        let log = &written(&[b"1"])[..7];
        let file: PathBuf = folder.file(&name, log);
        let missing = folder.join(format!("{name} missing"));
        let all = all_said(&file).into_iter().chain(all_said(&missing));
        // The last of them made the file.
        fs::remove_file(&missing).expect("the file");
        for ran in all {
            for line in ran.text().lines().chain(ran.err.lines()) {
                assert_ne!(line.trim(), forged);
                let tricks =
                    |c: char| c.is_control() || "\u{2028}\u{202e}\u{2066}\u{200f}".contains(c);
                assert!(!line.contains(tricks), "{line:?}");
            }
            assert!(
                ran.err.lines().all(|line| line.starts_with("mellansko: ")),
                "{}",
                ran.err
            );
        }
    }
}
