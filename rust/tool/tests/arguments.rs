//! What is asked for, and what is asked for wrongly.

#[macro_use]
mod common;

use common::files::Folder;
use common::{ran, tool};
use std::ffi::OsStr;
use std::os::unix::ffi::OsStrExt;

const COMMANDS: [&str; 6] = ["verify", "dump", "map", "cat", "append", "mend"];

#[test]
fn help_comes_on_standard_output_for_the_tool_and_each_command() {
    for word in ["help", "--help", "-h"] {
        let ran = run!(word);
        let help = ran.done().text();
        for command in COMMANDS {
            assert!(help.contains(&format!("mellansko {command} ")), "{help}");
        }
        assert!(help.contains("Exit status"), "{help}");
    }
    for command in COMMANDS {
        let first = format!("mellansko {command} ");
        let help = run!(command, "--help").done().text().to_string();
        assert!(
            help.starts_with(&first) && help.contains("Exit status"),
            "{help}"
        );
        assert!(help.lines().all(|line| line.len() <= 80), "{help}");
        // Figures, and no names of figures.
        assert!(!help.contains(['{', '}']), "{help}");
        // With other words before or after it, nothing is done but help.
        for words in [
            &[command, "-h"][..],
            &[command, "a", "b", "c", "--help"],
            &[command, "--help", "a"],
            &["help", command],
            &["--help", command],
            &["-h", command],
        ] {
            assert_eq!(ran(tool().args(words)).done().text(), help, "{words:?}");
        }
    }
}

#[test]
fn help_names_the_figures_of_the_format() {
    for (command, figures) in [
        ("verify", &["32 768", "4 194 304"][..]),
        ("dump", &["1 073 741 824", "4 194 304"]),
        ("map", &["32 768", "4 194 304"]),
        ("append", &["1 073 741 824", "4 194 304"]),
        ("mend", &["1 073 741 824", "4 194 304"]),
    ] {
        let ran = run!(command, "--help");
        for figure in figures {
            assert!(ran.text().contains(figure), "{figure}: {}", ran.text());
        }
    }
}

#[test]
fn help_on_help_is_help() {
    let help = run!("--help").done().text().to_string();
    for first in ["help", "--help", "-h"] {
        for second in ["help", "--help", "-h"] {
            assert_eq!(run!(first, second).done().text(), help, "{first} {second}");
        }
    }
}

#[test]
fn help_appends_nothing() {
    let folder = Folder::new("arguments-help");
    let file = folder.join("log");
    feed!(b"1"; "append", "--new", &file, "--help").done();
    assert!(!file.exists());
}

#[test]
fn the_version_is_that_of_the_package() {
    for word in ["--version", "-V"] {
        let version = format!("mellansko {}\n", env!("CARGO_PKG_VERSION"));
        assert_eq!(run!(word).done().text(), version);
    }
}

#[test]
fn no_command_gives_help_as_a_complaint() {
    let ran = ran(&mut tool());
    assert_eq!((ran.status, ran.text()), (Some(2), ""));
    ran.warned(&["no command", "mellansko verify FILE", "--help"]);
}

/// Bad arguments, and what the message says of them.
const BAD: [(&[&str], &[&str]); 67] = [
    (
        &["vrify", "x"],
        &[
            "no command vrify",
            "verify, dump, map, cat, append and mend",
        ],
    ),
    (&["VERIFY", "x"], &["no command VERIFY"]),
    (&["--verify", "x"], &["no command --verify"]),
    (&[""], &["no command"]),
    (&["help", "vrify"], &["no command vrify"]),
    (&["verify"], &["verify", "one file or more"]),
    (&["verify", "--"], &["verify", "one file or more"]),
    (
        &["verify", "-", "-"],
        &["verify", "standard input", "only once"],
    ),
    (
        &["verify", "--", "-", "-"],
        &["verify", "standard input", "only once"],
    ),
    (
        &["verify", "--quiet", "x"],
        &["verify", "no option --quiet"],
    ),
    (&["verify", "-q", "x"], &["verify", "no option -q"]),
    (
        &["verify", "--all=yes", "x"],
        &["verify", "--all", "no value"],
    ),
    (
        &["verify", "--all", "--all", "x"],
        &["verify", "--all", "twice"],
    ),
    (
        &["verify", "--limit", "1", "x"],
        &["verify", "no option --limit"],
    ),
    (&["verify", ""], &["verify", "name is empty"]),
    (&["verify", "x", ""], &["verify", "name is empty"]),
    (&["dump"], &["dump", "one file", "0"]),
    (&["dump", "x", "y"], &["dump", "one file", "2"]),
    (&["dump", ""], &["dump", "name is empty"]),
    (&["dump", "x", "--limit"], &["dump", "--limit", "value"]),
    (
        &["dump", "--limit", "1", "--limit", "1", "x"],
        &["dump", "--limit", "twice"],
    ),
    (&["dump", "--limit=", "x"], &["dump", "--limit", "number"]),
    (
        &["dump", "--limit=-1", "x"],
        &["dump", "--limit", "number", "-1"],
    ),
    (
        &["dump", "--limit", "1e3", "x"],
        &["dump", "--limit", "number", "1e3"],
    ),
    (
        &["dump", "--limit", "1,000", "x"],
        &["dump", "--limit", "number", "1,000"],
    ),
    (&["dump", "--lim", "1", "x"], &["dump", "no option --lim"]),
    (
        &["dump", "--follow", "-"],
        &["dump", "--follow", "file's name", "standard input"],
    ),
    (&["dump", "--follow"], &["dump", "one file", "0"]),
    (&["dump", "--follow", "x", "y"], &["dump", "one file", "2"]),
    (
        &["dump", "--follow=x", "x"],
        &["dump", "--follow", "no value"],
    ),
    (
        &["verify", "--follow", "x"],
        &["verify", "no option --follow"],
    ),
    (&["dump", "--long"], &["dump", "one file", "0"]),
    (&["dump", "--long", "x", "y"], &["dump", "one file", "2"]),
    (
        &["dump", "--long=yes", "x"],
        &["dump", "--long", "no value"],
    ),
    (
        &["dump", "--long", "--long", "x"],
        &["dump", "--long", "twice"],
    ),
    (&["dump", "-l", "x"], &["dump", "no option -l"]),
    (
        &["dump", "--long", "--follow", "-"],
        &["dump", "--follow", "file's name", "standard input"],
    ),
    (&["verify", "--long", "x"], &["verify", "no option --long"]),
    (&["map", "--long", "x"], &["map", "no option --long"]),
    (&["cat", "--long", "x", "1"], &["cat", "no option --long"]),
    (&["append", "--long", "x"], &["append", "no option --long"]),
    (&["mend", "--long", "x", "y"], &["mend", "no option --long"]),
    (&["map"], &["map", "one file", "0"]),
    (&["map", "x", "y"], &["map", "one file", "2"]),
    (
        &["map", "--blocks", "0", "x"],
        &["map", "--blocks", "at least 1"],
    ),
    (
        &["map", "--blocks", "many", "x"],
        &["map", "--blocks", "number", "many"],
    ),
    (
        &["map", "--color", "red", "x"],
        &["map", "--color", "always, never or auto"],
    ),
    (
        &["map", "--color", "never", "--color=never", "x"],
        &["map", "--color", "twice"],
    ),
    (&["cat", "x"], &["cat", "number", "1"]),
    (&["cat", "x", "1", "2"], &["cat", "number", "3"]),
    (&["cat", "", "1"], &["cat", "name is empty"]),
    (&["append"], &["append", "one file", "0"]),
    (
        &["append", "--new=yes", "x"],
        &["append", "--new", "no value"],
    ),
    (
        &["append", "--new", "--new", "x"],
        &["append", "--new", "twice"],
    ),
    (&["append", "-n", "x"], &["append", "no option -n"]),
    (&["append", "-"], &["append", "standard input"]),
    (&["mend"], &["mend", "bad journal and the new one", "0"]),
    (
        &["mend", "x"],
        &["mend", "bad journal and the new one", "1"],
    ),
    (&["mend", "x", "y", "z"], &["mend", "the new one", "3"]),
    (&["mend", "", "y"], &["mend", "name is empty"]),
    (&["mend", "x", ""], &["mend", "name is empty"]),
    (
        &["mend", "-", "y"],
        &["mend", "bad journal is to be a file"],
    ),
    (
        &["mend", "--", "-", "y"],
        &["mend", "bad journal is to be a file"],
    ),
    (
        &["mend", "x", "-"],
        &["mend", "new journal is to be a file"],
    ),
    (&["mend", "--new", "x", "y"], &["mend", "no option --new"]),
    (&["mend", "-f", "x", "y"], &["mend", "no option -f"]),
    (
        &["mend", "--limit", "1", "x", "y"],
        &["mend", "no option --limit"],
    ),
];

#[test]
fn each_bad_argument_is_refused_and_named() {
    let folder = Folder::new("arguments-bad");
    for (words, says) in BAD {
        let ran = ran(tool().args(words).current_dir(&*folder));
        ran.failed(2, says);
        assert!(ran.err.contains("--help"), "{}", ran.err);
    }
    assert_eq!(folder.names(), [""; 0]);
}

#[test]
fn a_bad_argument_shows_as_one_line_whatever_is_in_it() {
    for word in [&b"a\nb\x1b[2J"[..], b"\xff\xfe", b"--\xff", b"-\xff=\n"] {
        let word = OsStr::from_bytes(word);
        run!(word).failed(2, &["no command"]);
        assert!(!run!(word).err.contains('\x1b'));
        run!("cat", "x", word).failed(2, &["cat"]);
    }
    for word in [&b"--\xff"[..], b"--limit\xff=1", b"-\xff"] {
        run!("dump", OsStr::from_bytes(word), "x").failed(2, &["dump", "no option -"]);
    }
    run!("dump", OsStr::from_bytes(b"--limit=\xff"), "x").failed(2, &["--limit", "number"]);
}
