//! `mellansko verify`: ranges in doubt that belong together are one gap, and a long list of gaps does
//! not hide the answer.

#[macro_use]
mod common;

use common::expect::{numbers, written, Found};
use common::files::{in_advice, Folder};
use common::report::check;
use common::terminal::{is_there, ran_on};
use common::{fed, ran, tool};
use reference::log::{fragment, BLOCK, FULL, HEADER, LAST, MIDDLE};
use reference::samples;

/// A log of so many gaps: every second block is changed, and one byte is in doubt in none of those
/// between them.
fn with_gaps(gaps: usize) -> Vec<u8> {
    let blocks = 2 * gaps + 1;
    let records: Vec<Vec<u8>> = (0..blocks).map(|i| vec![i as u8; BLOCK - HEADER]).collect();
    let mut log = written(&records);
    for gap in 0..gaps {
        log[(2 * gap + 1) * BLOCK + 100] ^= 1;
    }
    assert_eq!(Found::in_log(&log).gaps().len(), gaps);
    log
}

fn is_heading(line: &&&str) -> bool {
    line.starts_with("Gap of ")
}

#[test]
fn the_ranges_of_a_damaged_record_are_one_gap() {
    let log = samples::damaged();
    let found = Found::in_log(&log);
    assert_eq!((found.skips.len(), found.gaps().len()), (3, 1));
    let ran = fed(tool().args(["verify", "-"]), &log);
    let lines = ran.lines();
    assert_eq!(lines.iter().filter(is_heading).count(), 1);
    check("standard input", &log, &lines);
}

/// A trailer between two ranges in doubt holds no record.
#[test]
fn a_trailer_does_not_part_a_gap() {
    for left in 1..HEADER {
        // A record, then an orphan up to the trailer, and an orphan in the next block.
        let first = written(&[b"first"]);
        let orphan = fragment(MIDDLE, &vec![1; BLOCK - left - first.len() - HEADER]);
        let mut log = [first, orphan, vec![0; left]].concat();
        assert_eq!(log.len(), BLOCK);
        log.extend(fragment(LAST, b"orphan"));
        log.extend(fragment(FULL, b"second"));
        let found = Found::in_log(&log);
        let parted = found.skips[1].0.start - found.skips[0].0.end;
        assert_eq!((parted, found.gaps().len()), (left, 1));
        let ran = fed(tool().args(["verify", "-"]), &log);
        let rest = ran.lines();
        check("standard input", &log, &rest);
        assert_eq!(rest.iter().filter(is_heading).count(), 1, "{rest:?}");
    }
}

/// Logs, and how their gaps are headed: before the first record, between two, after the last with the
/// torn tail in it, and with no record at all.
fn placed() -> [(Vec<u8>, &'static [&'static str]); 4] {
    let orphan = || fragment(LAST, b"orphan");
    let sound = || fragment(FULL, b"sound");
    let torn = || vec![9; 3];
    [
        (
            [orphan(), orphan(), sound()].concat(),
            &["before the first readable record, which starts at byte "],
        ),
        (
            [sound(), orphan(), orphan(), sound(), orphan(), sound()].concat(),
            &[
                "between record 1, which ends",
                "between record 2, which ends",
            ],
        ),
        (
            [sound(), orphan(), torn()].concat(),
            &["after the last readable record, number 1, which ends at byte "],
        ),
        (
            [orphan(), torn()].concat(),
            &["with no readable record before it or after it"],
        ),
    ]
}

#[test]
fn a_gap_is_placed_by_the_records_around_it() {
    for (log, headings) in placed() {
        let ran = fed(tool().args(["verify", "-"]), &log);
        let lines = ran.lines();
        check("standard input", &log, &lines);
        let said: Vec<&&str> = lines.iter().filter(is_heading).collect();
        assert_eq!(said.len(), headings.len(), "{lines:?}");
        for (line, heading) in said.iter().zip(headings) {
            assert!(line.contains(heading), "{line}");
        }
    }
}

#[test]
fn of_more_than_twenty_gaps_the_first_twenty_are_listed() {
    let folder = Folder::new("gaps-many");
    for gaps in [19, 20, 21, 25] {
        let log = with_gaps(gaps);
        let file = folder.file("race.log", &log);
        let found = Found::in_log(&log);
        let few = run!("verify", &file);
        let all = run!("verify", "--all", &file);
        let headings = |text: &str| text.lines().filter(|line| is_heading(&line)).count();
        assert_eq!(headings(all.text()), gaps);
        assert_eq!(headings(few.text()), gaps.min(20));
        assert!(!all.text().contains("--all"), "{}", all.text());
        let name = file.to_str().expect("UTF-8");
        check(name, &log, &all.lines());
        let Some(more) = gaps.checked_sub(20).filter(|&more| more > 0) else {
            assert_eq!(few.text(), all.text());
            continue;
        };
        let lines = few.lines();
        // Each with its range, as in the list of all.
        assert_eq!(lines[1..=2 * 20], all.lines()[1..=2 * 20]);
        let last = lines.iter().rposition(|line| is_heading(&line));
        let [said, how, command] = lines[last.unwrap() + 2..][..3] else {
            panic!("{lines:?}");
        };
        let hidden = &found.gaps()[20..];
        let bytes: usize = hidden.iter().map(|gap| gap.bytes()).sum();
        assert_eq!(numbers(said), [more, bytes], "{said}");
        assert!(said.starts_with("And ") && how == "To see all of them:");
        // That is what lists them.
        let name = in_advice(&file);
        assert_eq!(command, format!("    mellansko verify --all {name}"));
    }
}

#[test]
fn of_more_than_twenty_ranges_in_a_gap_the_first_twenty_are_listed() {
    let folder = Folder::new("gaps-ranges");
    for ranges in [20, 21, 500] {
        let sound = fragment(FULL, b"1");
        let orphans = fragment(LAST, b"orphan").repeat(ranges);
        let log = [&sound[..], &orphans, &sound].concat();
        assert_eq!(Found::in_log(&log).gaps()[0].ranges.len(), ranges);
        let few = fed(tool().args(["verify", "-"]), &log);
        let all = fed(tool().args(["verify", "--all", "-"]), &log);
        check("standard input", &log, &all.lines());
        // A file is read again for it.
        folder.file("standard input", &log);
        let words = ["verify", "--all", "standard input"];
        let again = ran(tool().args(words).current_dir(&*folder));
        let list = |text: &str| text.split("\n\n").next().map(String::from);
        assert_eq!(list(again.text()), list(all.text()));
        let points = |text: &str| {
            text.lines()
                .filter(|line| line.starts_with("  - bytes"))
                .count()
        };
        assert_eq!(points(few.text()), 20);
        let more = few
            .text()
            .contains(&format!("  - and {} more range", ranges - 20));
        assert_eq!(more, ranges > 20, "{}", few.text());
        assert_eq!(few.text().contains("verify --all -"), ranges > 20);
    }
}

/// By which the answer is found again after a list that does not fit a screen.
fn times_said(text: &str) -> usize {
    let first = text.lines().next().expect("an answer");
    text.lines().filter(|&line| line == first).count()
}

#[test]
fn what_does_not_fit_a_screen_ends_in_the_answer_again() {
    let folder = Folder::new("gaps-screen");
    let mut seen = [false; 2];
    for gaps in 1..=25 {
        let file = folder.file("log", &with_gaps(gaps));
        for words in [&["verify"][..], &["verify", "--all"]] {
            let ran = ran(tool().args(words).arg(&file));
            let times = times_said(ran.text());
            let lines = ran.lines();
            // What is said again is an empty line and the answer.
            let long = lines.len() - 2 * (times - 1) > 24;
            assert_eq!(times, if long { 2 } else { 1 }, "{}", ran.text());
            seen[usize::from(long)] = true;
            if long {
                // After the list, and before what to do.
                let again = lines.iter().rposition(|line| *line == lines[0]);
                let after = &lines[again.unwrap() + 1..];
                assert!(
                    !after.iter().any(|line| line.starts_with("  - ")),
                    "{after:?}"
                );
                assert!(after
                    .join(" ")
                    .contains("What to do now: keep the file as it is."));
            }
        }
    }
    assert_eq!(seen, [true; 2]);
}

#[test]
fn of_several_journals_the_answer_for_all_comes_again() {
    let folder = Folder::new("gaps-several");
    let few = folder.file("few", &with_gaps(1));
    let many = folder.file("many", &with_gaps(25));
    for (files, times) in [([&few, &few], 1), ([&few, &many], 2)] {
        let ran = ran(tool().arg("verify").args(files));
        assert!(ran.lines()[0].starts_with("IN DOUBT: of 2 journals, "));
        assert_eq!(times_said(ran.text()), times, "{}", ran.text());
    }
}

/// As many rows as the terminal has, less one for the prompt.
#[test]
fn a_screen_is_as_high_as_the_terminal() {
    if !is_there() {
        return;
    }
    let log = samples::damaged();
    let answer = |rows| {
        let (_, text) = ran_on((100, rows), tool().args(["verify", "-"]), &log);
        let again = text.matches("standard input: IN DOUBT: ").count();
        (again, text.lines().count())
    };
    let (again, lines) = answer(100);
    assert_eq!(again, 1);
    let just = u16::try_from(lines + 1).unwrap();
    assert_eq!(answer(just), (1, lines));
    assert_eq!(answer(just - 1).0, 2);
}
