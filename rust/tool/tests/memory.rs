//! However much is in doubt in a journal, no more of it is kept than there is room for.

mod common;

use common::expect::{long_log, numbers, Found};
use common::files::Folder;
use common::report::check;
use common::{fed, ran, tool_within, Ran};
use reference::log::{fragment, BLOCK, FIRST, FULL, HEADER, LAST};
use std::process::Command;

/// What the tool may take at all, its own program and the system's libraries among it, and what is
/// kept of a pipe. To keep every range of a journal of 512 blocks takes more.
const MEBIBYTES: usize = 24;
const MEBIBYTES_FOR_A_PIPE: usize = 48;

fn in_little_memory(words: &[&str], folder: &Folder) -> Ran {
    ran(tool_within(MEBIBYTES).args(words).current_dir(&**folder))
}

/// The same on standard input.
fn over_a_pipe(words: &[&str], folder: &Folder, log: &[u8]) -> Ran {
    let mut command = tool_within(MEBIBYTES_FOR_A_PIPE);
    fed(command.args(words).current_dir(&**folder), log)
}

/// Blocks of empty fragments of these types in turn, and a trailer of one byte: as many answers as
/// there can be but for one a block, since the trailer is clean.
fn of_empty_fragments(types: &[u8], blocks: usize) -> Vec<u8> {
    let kinds = types.iter().cycle().take(BLOCK / HEADER);
    let mut block: Vec<u8> = kinds.flat_map(|&kind| fragment(kind, b"")).collect();
    block.resize(BLOCK, 0);
    block.repeat(blocks)
}

#[test]
fn what_is_counted_takes_no_memory() {
    let folder = Folder::new("memory");
    let most = 512;
    let all = &["dump", "verify", "map"][..];
    for (log, commands, status) in [
        (Vec::new(), all, 0),
        (long_log(), all, 0),
        // Records, gaps and ranges of a gap, more than anybody could keep.
        (of_empty_fragments(&[FULL, LAST], most), all, 1),
        (of_empty_fragments(&[FULL], most), &["verify"], 0),
        (of_empty_fragments(&[LAST], most), &["verify"], 1),
        // Empty starts, of which nobody keeps a list: up to a torn end, and between records.
        (of_empty_fragments(&[FIRST], most), all, 1),
        (of_empty_fragments(&[FULL, FIRST], most), all, 0),
    ] {
        folder.file("log", &log);
        for command in commands {
            let ran = in_little_memory(&[command, "log"], &folder);
            assert_eq!((ran.status, ran.err.as_str()), (Some(status), ""));
        }
    }
}

/// The lines on a journal, without a warning of blocks that are equal.
fn lines(ran: &Ran) -> Vec<&str> {
    assert_eq!((ran.status, ran.err.as_str()), (Some(1), ""));
    let mut lines = ran.lines();
    lines.retain(|line| !line.starts_with("WARNING: "));
    lines
}

/// Every gap and every range of a file, which together are more than that.
#[test]
fn a_list_of_all_gaps_takes_no_more_memory() {
    let folder = Folder::new("memory-all");
    for types in [
        &[FULL, LAST][..],
        &[LAST],
        // With empty starts between gaps, and inside of one.
        &[FULL, FIRST, FULL, LAST],
        &[LAST, FIRST, FIRST, 9],
    ] {
        let log = of_empty_fragments(types, 10);
        folder.file("log", &log);
        let ran = in_little_memory(&["verify", "--all", "log"], &folder);
        let lines = lines(&ran);
        let rest = check("log", &log, &lines);
        assert!(rest.len() < 30, "{rest:?}");
    }
}

/// What is said where not all that came over a pipe is listed: on ranges of the last gap that is, on
/// gaps after it, and how to see them.
const ONCE: &str = "Of a journal that can be read only once, no more than 100 000 ranges are \
                    listed. To see all of them, with the same input again, by way of a file:";

/// A journal of so many ranges in doubt, in one gap or in as many.
fn of_ranges(number: usize, in_one_gap: bool) -> Vec<u8> {
    let (types, each) = match in_one_gap {
        true => (&[LAST][..], 1),
        false => (&[FULL, LAST, FULL][..], 3),
    };
    let mut log = of_empty_fragments(types, (number * each).div_ceil(BLOCK / HEADER - 2));
    let mut ranges = 0;
    let mut place = 0;
    while ranges < number {
        place += if BLOCK - place % BLOCK < HEADER {
            BLOCK - place % BLOCK
        } else {
            0
        };
        ranges += usize::from(log[place + 6] == LAST);
        place += HEADER;
    }
    log.truncate(place);
    let found = Found::in_log(&log);
    assert_eq!(found.skips.len(), number);
    assert_eq!(found.gaps().len(), if in_one_gap { 1 } else { number });
    log
}

#[test]
fn of_a_pipe_100_000_ranges_are_listed_and_the_others_are_told() {
    let folder = Folder::new("memory-pipe");
    let words = ["verify", "--all", "-"];
    for in_one_gap in [true, false] {
        let log = of_ranges(100_000, in_one_gap);
        let ran = over_a_pipe(&words, &folder, &log);
        let rest = check("standard input", &log, &lines(&ran)).join("\n");
        assert!(rest.starts_with("\nstandard input: IN DOUBT: "), "{rest}");
        assert!(!rest.contains("listed"), "{rest}");

        let log = of_ranges(100_001, in_one_gap);
        let ran = over_a_pipe(&words, &folder, &log);
        let lines = lines(&ran);
        let points = |lines: &[&str]| {
            let points = lines.iter().filter(|line| line.starts_with("  - bytes "));
            points.count()
        };
        assert_eq!(points(&lines), 100_000);
        let last = lines
            .iter()
            .rposition(|line| line.starts_with("  - bytes "));
        let [more, once, command, ..] = lines[last.expect("a range") + 1..] else {
            panic!("{lines:?}");
        };
        let says = match in_one_gap {
            true => "  - and 1 more range in this gap",
            false => "And 1 more gap, with 7 bytes in doubt.",
        };
        assert_eq!((more, once), (says, ONCE));
        assert_eq!(
            command,
            "    cat - >journal.log && mellansko verify --all journal.log"
        );
    }
}

/// However many there are.
#[test]
fn of_a_pipe_no_more_is_kept() {
    let folder = Folder::new("memory-pipe-more");
    for (types, says) in [
        (&[LAST][..], "  - and 2 296 672 more ranges in this gap"),
        (
            &[FULL, LAST],
            "And 1 098 080 more gaps, with 7 686 560 bytes in doubt.",
        ),
    ] {
        let log = of_empty_fragments(types, 512);
        let ran = over_a_pipe(&["verify", "--all", "-"], &folder, &log);
        let lines = lines(&ran);
        assert!(lines.contains(&says) && lines.contains(&ONCE));
    }
}

/// With the input again, the line that is advised lists them all.
#[test]
fn by_way_of_a_file_all_are_listed() {
    let folder = Folder::new("memory-advice");
    folder.file("journal.log", b"theirs");
    let log = of_ranges(100_100, true);
    let words = ["verify", "--all", "/dev/stdin"];
    for words in [["verify", "--all", "-"], words] {
        let mut command = tool_within(MEBIBYTES_FOR_A_PIPE);
        command.env("MELLANSKO", env!("CARGO_BIN_EXE_mellansko"));
        let ran = fed(command.args(words).current_dir(&*folder), &log);
        let line = ran
            .lines()
            .into_iter()
            .find(|line| line.starts_with("    cat "));
        let line = line.expect("a line to type").to_string();
        assert!(line.starts_with(&format!("    cat {} >journal-2.log && ", words[2])));
        let mut shell = Command::new("sh");
        shell.args(["-c", &line]).current_dir(&*folder);
        let ran = fed(&mut shell, &log);
        assert_eq!(numbers(ran.lines()[0])[0], 2);
        assert_eq!(ran.text().matches("\n  - bytes ").count(), 100_100);
        assert!(!ran.text().contains("listed"), "not all");
        std::fs::remove_file(folder.join("journal-2.log")).expect("the file");
        assert_eq!(folder.names(), ["journal.log"]);
    }
}
