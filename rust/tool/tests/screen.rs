//! What is shown fits the screen, and its numbers can't be misread.

#[macro_use]
mod common;

use common::damage::{long_logs, mixed_log};
use common::expect::{numbers, written};
use common::files::Folder;
use common::random::Random;
use common::terminal::{is_there, ran_on};
use common::{ran, tool};
use reference::log::{fragment, BLOCK, FIRST, HEADER};
use reference::samples;
use std::process::{Command, Stdio};

const HELP: [&[&str]; 7] = [
    &["--help"],
    &["verify", "--help"],
    &["dump", "--help"],
    &["map", "--help"],
    &["cat", "--help"],
    &["append", "--help"],
    &["mend", "--help"],
];

/// What the tool is asked for, where these journals are.
const WORDS: [&[&str]; 27] = [
    &["verify", "clean"],
    &["verify", "damaged"],
    &["verify", "torn"],
    &["verify", "mixed"],
    &["verify", "equal"],
    &["verify", "old"],
    &["verify", "no journal"],
    &["verify", "clean", "damaged", "torn", "missing", "equal"],
    &["map", "damaged"],
    &["map", "mixed"],
    &["cat", "damaged", "999999"],
    &["cat", "torn", "824"],
    &["append", "torn"],
    &["append", "missing"],
    &["append", "--new", "torn"],
    &["append", "--new", "no/such/folder/log"],
    &["dump", "--limit", "4194305", "clean"],
    &["dump", "/dev/zero"],
    &["dump", "--follow", "/dev/null"],
    &["dump", "--follow", "-"],
    &["mend", "missing", "new"],
    &["mend", "torn", "clean"],
    &["mend", "torn", "no/such/folder/log"],
    &["mend", "torn"],
    &["verify", "--nonsense"],
    &["nonsense"],
    &[],
];

/// A run of each kind that shows text, each in a folder with the journals that it names.
fn speakers(folder: &Folder) -> Vec<Command> {
    folder.file("clean", &samples::clean().log);
    folder.file("damaged", &samples::damaged());
    folder.file("torn", &samples::torn());
    folder.file("mixed", &mixed_log());
    folder.file("equal", &written(&vec![vec![7; BLOCK - HEADER]; 50]));
    folder.file("old", &old_writers());
    folder.file("no journal", &[b'x'; 100_000]);
    let speaker = |words: &&[&str]| {
        let mut command = tool();
        command.args(*words).current_dir(&**folder);
        command.env("NO_COLOR", "1");
        command
    };
    let words = WORDS.iter().chain(&HELP);
    let mended = [
        "clean",
        "damaged",
        "torn",
        "mixed",
        "equal",
        "old",
        "no journal",
    ];
    let mended = mended.map(|bad| mending(bad, folder));
    words.map(speaker).chain(mended).collect()
}

/// A journal with an empty start at its first block's end.
fn old_writers() -> Vec<u8> {
    let first = written(&[vec![7; BLOCK - 2 * HEADER]]);
    [first, fragment(FIRST, b""), written(&[b"1"])].concat()
}

/// A run that mends a journal, each time that it is run.
fn mending(bad: &str, folder: &Folder) -> Command {
    let mut command = Command::new("sh");
    let script = "rm -f new; exec \"$0\" mend \"$1\" new";
    command.args(["-c", script, env!("CARGO_BIN_EXE_mellansko"), bad]);
    command.env("MELLANSKO", "mellansko").env_remove("COLUMNS");
    command.stdin(Stdio::null()).current_dir(&**folder);
    command
}

/// So high that nothing is said again.
const HIGH: u16 = 1_000;

/// A line that can be typed is never broken, but the names here are short.
fn check_rows(text: &str, columns: u16, command: &Command) {
    for row in text.lines() {
        let wide = row.chars().count();
        assert!(wide <= usize::from(columns), "{command:?}: {row}");
        assert_eq!(row.trim_end(), row);
    }
    let rows: Vec<&str> = text.lines().collect();
    for pair in rows.windows(2) {
        let (ends, begins) = (pair[0].chars().last(), pair[1].trim_start().chars().next());
        let digit = |c: Option<char>| c.is_some_and(|c| c.is_ascii_digit());
        assert!(!digit(ends) || !digit(begins), "a broken number: {pair:?}");
    }
}

#[test]
fn text_is_wrapped_to_the_terminal_between_words() {
    if !is_there() {
        return;
    }
    let folder = Folder::new("screen-wrap");
    for mut command in speakers(&folder) {
        let words =
            |text: &str| -> Vec<String> { text.split_whitespace().map(String::from).collect() };
        let (status, wide) = ran_on((200, HIGH), &mut command, b"");
        // However wide the terminal, rows of text are not.
        check_rows(&wide, 100, &command);
        for columns in [60, 80] {
            let (same, text) = ran_on((columns, HIGH), &mut command, b"");
            check_rows(&text, columns, &command);
            assert_eq!(same, status);
            if !wide.contains("\nblock ") {
                assert_eq!(words(&text), words(&wide), "{command:?}");
            }
        }
        // In a narrow one no row is empty that is not meant to be, and nothing is lost.
        let (_, narrow) = ran_on((12, HIGH), &mut command, b"");
        if !wide.contains("\nblock ") {
            assert_eq!(words(&narrow), words(&wide), "{command:?}");
        }
    }
}

#[test]
fn help_is_at_most_80_columns_wide_where_nobody_watches() {
    for words in HELP {
        let ran = ran(tool().args(words));
        check_rows(ran.done().text(), 80, &tool());
    }
}

/// Neither commas nor points in a number, and no two numbers that could be read as one.
#[test]
fn numbers_can_not_be_misread() {
    let mut random = Random::new();
    println!("{random}");
    let folder = Folder::new("screen-numbers");
    let mut all: Vec<String> = Vec::new();
    for mut command in speakers(&folder) {
        let ran = ran(&mut command);
        // A record has what numbers it has, and a dump's lines are for programs.
        let mut words = command.get_args();
        let other = words.any(|word| word == "cat" || word == "/dev/zero");
        all.extend((!other).then(|| ran.text().into()));
        all.push(ran.err);
    }
    for log in long_logs(&mut random, 40) {
        let ran = common::fed(tool().args(["verify", "--all", "-"]), &log);
        all.push(ran.text().into());
    }
    for text in all {
        for line in text.lines() {
            // This fails where digits side by side make no number.
            numbers(line);
            assert!(!has_two_at_a_mark(line), "{line}");
        }
    }
}

/// Whether two digits have nothing but a mark between them, or a mark and a space, as in "of 5. 828".
fn has_two_at_a_mark(line: &str) -> bool {
    let digit = |c: Option<char>| c.is_some_and(|c| c.is_ascii_digit());
    let marks = [',', '.', ';', ':', '\'', '\u{a0}', '\u{202f}'];
    line.match_indices(marks).any(|(place, mark)| {
        let after = &line[place + mark.len()..];
        digit(line[..place].chars().last()) && digit(after.trim_start().chars().next())
    })
}

/// The dump is for programs: its numbers are plain.
#[test]
fn a_dump_has_plain_numbers() {
    let folder = Folder::new("screen-dump");
    let ran = run!("dump", folder.file("log", &samples::damaged()));
    assert!(ran.text().contains("\nS 32768 65536 3\n"), "{}", ran.text());
}

/// What help says is promised, and what it says no reader can tell.
#[test]
fn help_claims_no_more_than_is_known() {
    let all = run!("--help").text().replace('\n', " ");
    let verify = run!("verify", "--help").text().to_string();
    for text in [
        &all,
        &verify.split_whitespace().collect::<Vec<_>>().join(" "),
    ] {
        for said in [
            "between two records",
            "left out, repeated, or replaced by",
            "right checksum",
        ] {
            assert!(text.contains(said), "{said:?} is not in: {text}");
        }
    }
    assert!(all.contains("Damage that the format shows is always named"));
    // One by one.
    let points = verify.lines().filter(|line| line.starts_with("  - "));
    assert_eq!(points.count(), 3, "{verify}");
    for words in HELP {
        let text = ran(tool().args(words)).text().to_lowercase();
        let text = text.split_whitespace().collect::<Vec<_>>().join(" ");
        // That is said of empty starts, and only so.
        let text = text.replace("as far as a reader can tell, nothing is lost", "");
        for claim in ["whole", "silently", "nothing is lost"] {
            assert!(!text.contains(claim), "{claim}: {text}");
        }
    }
}
