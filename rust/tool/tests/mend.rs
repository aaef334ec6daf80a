//! `mellansko mend`: what can be read of a journal in a new one, and what is said of the rest.

#[macro_use]
mod common;

use common::damage::{dirty_logs, long_logs, mixed_log, small_logs};
use common::expect::{count, dumped, example, mended, numbers, written, Found};
use common::files::Folder;
use common::random::Random;
use common::report::{check_empty_starts, check_gaps, figures_of_doubt};
use common::{ran, tool, Ran};
use reference::log::{fragment, BLOCK, FIRST, FULL, HEADER, LAST, MIDDLE};
use reference::samples;
use std::fs;

/// What is said wherever something was left out. With a dirty trailer no record is lost.
fn keep(found: &Found) -> (&'static str, String) {
    let (left_out, was) = match found.is_only_dirty_trailers() {
        true => ("bad: LEFT OUT: ", "wrong"),
        false => ("bad: LOST: ", "lost"),
    };
    let keep = format!(
        "keep bad. It alone shows that something was {was}: in the new journal no damage will be \
         found."
    );
    (left_out, keep)
}

/// Mends a log in a folder of its own, and gives what was said and what was made.
fn mend(folder: &Folder, log: &[u8]) -> (Ran, Vec<u8>) {
    let bad = folder.file("bad", log);
    let _ = fs::remove_file(folder.join("new"));
    let mut command = tool();
    command.args(["mend", "bad", "new"]).current_dir(&**folder);
    let ran = ran(&mut command);
    assert_eq!(ran.err, "");
    assert!(fs::read(bad).expect("the bad journal") == log);
    assert_eq!(folder.names(), ["bad", "new"]);
    (ran, fs::read(folder.join("new")).expect("the new journal"))
}

/// Holds what was said to the reference: what was kept, and each range that was lost.
fn check_said(ran: &Ran, found: &Found, new: &[u8]) {
    let mut lines = ran.lines();
    let kept = match found.records.len() {
        0 => "new: kept no record, so it is empty".to_string(),
        number => format!(
            "new: kept {}, in {}",
            count(number, "record"),
            count(new.len(), "byte")
        ),
    };
    assert!(lines[0].starts_with(&kept), "{}", lines[0]);
    let (left_out, keep) = keep(found);
    assert_eq!(lines[1].starts_with(left_out), !found.is_whole());
    assert_eq!(
        lines[1].starts_with("bad: nothing was left out: no damage found"),
        found.is_whole()
    );
    if !found.is_whole() {
        assert_eq!(numbers(lines[1]), figures_of_doubt(found), "{}", lines[1]);
    }
    // Equal blocks may be warned of.
    lines.retain(|line| !line.starts_with("WARNING: "));
    let rest = check_gaps(found, check_empty_starts(found, &lines[2..]));
    assert!(!rest.iter().any(|line| line.starts_with("  - ")));
    let advice = rest.join(" ");
    assert_eq!(advice.contains(&keep), !found.is_whole(), "{advice}");
}

#[test]
fn of_many_damaged_logs_all_that_can_be_read_is_kept_and_each_loss_told() {
    let mut random = Random::new();
    println!("{random}");
    let folder = Folder::new("mend-many");
    let mut logs: Vec<Vec<u8>> = small_logs(&mut random).into_iter().step_by(4).collect();
    // No more gaps than are listed.
    logs.extend(long_logs(&mut random, 30));
    logs.extend(dirty_logs());
    logs.push(mixed_log());
    for log in logs {
        let found = Found::in_log(&log);
        let (ran, new) = mend(&folder, &log);
        assert_eq!(ran.status, Some(found.status()), "{}", ran.text());
        assert!(new == mended(&found), "{} bytes", log.len());
        check_said(&ran, &found, &new);
        // The tool itself finds no damage in it.
        let dump = run!("dump", folder.join("new"));
        assert!(dump.done().text() == dumped(&new, 4_194_304));
    }
}

#[test]
fn the_records_are_those_of_the_bad_journal_in_order() {
    let folder = Folder::new("mend-cat");
    let log = mixed_log();
    let (_, new) = mend(&folder, &log);
    let found = Found::in_log(&log);
    assert_eq!(Found::in_log(&new).records.len(), found.records.len());
    for (i, (_, record)) in found.records.iter().enumerate() {
        let number = (i + 1).to_string();
        let before = run!("cat", folder.join("bad"), &number);
        let after = run!("cat", folder.join("new"), &number);
        assert!(before.out == *record && after.done().out == *record, "{i}");
    }
}

#[test]
fn a_journal_without_damage_is_the_same_byte_for_byte() {
    let folder = Folder::new("mend-whole");
    for log in [samples::clean().log, example(), written(&[b""])] {
        let (ran, new) = mend(&folder, &log);
        assert!(new == log);
        let lines = ran.done().lines();
        assert!(
            lines[0].ends_with(" bytes, the same, byte for byte, as bad."),
            "{}",
            lines[0]
        );
        // And then what verify says of it.
        let verified = common::ran(tool().args(["verify", "bad"]).current_dir(&*folder));
        let verified = verified.text().strip_prefix("bad: ").expect("a verdict");
        let said = format!("{}\nbad: nothing was left out: {verified}", lines[0]);
        assert_eq!(ran.text(), said);
    }
}

/// Another writer may part a record where none has to, also before the zeros that fill up a block.
#[test]
fn records_that_another_writer_stored_otherwise_are_kept_too() {
    let folder = Folder::new("mend-other");
    let parted = [fragment(FIRST, b"LW10-1 "), fragment(LAST, b"0.9137")].concat();
    let first = fragment(FIRST, &[1; BLOCK - HEADER - 3]);
    let filled = [first, vec![0; 3], fragment(LAST, b"2")].concat();
    for log in [parted, filled] {
        let (ran, new) = mend(&folder, &log);
        let found = Found::in_log(&log);
        assert!(new == mended(&found) && new != log);
        check_said(&ran, &found, &new);
        assert!(!ran.done().text().contains("byte for byte"));
    }
}

#[test]
fn of_no_bytes_nothing_is_left_out_and_the_new_journal_is_empty() {
    let folder = Folder::new("mend-empty");
    let (ran, new) = mend(&folder, b"");
    assert_eq!(new, b"");
    assert_eq!(
        ran.done().lines()[..2],
        [
            "new: kept no record, so it is empty.",
            "bad: nothing was left out: no damage found, but it is empty: \
             it has no bytes and no records."
        ]
    );
}

#[test]
fn of_what_is_no_journal_all_is_lost() {
    let folder = Folder::new("mend-garbage");
    for (log, lost) in [
        (b"%PDF-1.4 and more".repeat(9), "all of its 153 bytes"),
        (vec![0; 100], "all of its 100 bytes"),
        (b"torn".to_vec(), "all of its 4 bytes"),
    ] {
        let (ran, new) = mend(&folder, &log);
        assert_eq!((ran.status, new.len()), (Some(1), 0));
        let lines = ran.lines();
        assert_eq!(lines[0], "new: kept no record, so it is empty.");
        assert!(lines[1].starts_with(&format!("bad: LOST: {lost}, in block 1 of 1")));
        let [.., what, verify] = lines[..] else {
            panic!("{lines:?}");
        };
        assert_eq!(
            what,
            "Nothing in bad can be read as a record: is it a journal? What it begins with:"
        );
        assert_eq!(verify, "    mellansko verify bad");
    }
}

#[test]
fn a_torn_tail_alone_is_a_loss() {
    let folder = Folder::new("mend-torn");
    let (ran, new) = mend(&folder, &samples::torn());
    assert!(new == samples::torn()[..124_065]);
    assert_eq!(ran.status, Some(1));
    assert_eq!(
        ran.text(),
        "\
new: kept 824 records, in 124 065 bytes.
bad: LOST: 78 of its 124 143 bytes, in block 4 of 4; its end is torn from byte 124 065 on.
Gap of 78 bytes in block 4, after the last readable record, number 824, which ends at byte 124 065
  - bytes 124 065 to 124 143 (78 bytes, block 4): torn tail, \
the journal ends inside of what starts here

What to do now: keep bad. It alone shows that something was lost: in the new journal no damage will
be found.
The bad journal's end is torn: that may be the record that was being written when the power went.
Damage in the last block can look the same, so see whether the last record that can be read is the
one you expect.
To go on in the new journal, with the record that you type next:
    mellansko append new
"
    );
}

/// §12.9 of the format page.
#[test]
fn the_example_is_mended_as_the_format_page_says() {
    let folder = Folder::new("mend-example");
    let mut log = example();
    log[40_000] ^= 1;
    let (ran, new) = mend(&folder, &log);
    assert_eq!((ran.status, new.len()), (Some(1), 9_014));
    assert_eq!(
        ran.lines()[..3],
        [
            "new: kept 2 records, in 9014 bytes.",
            "bad: LOST: 97 291 of its 106 311 bytes, in blocks 1 to 3 of 4.",
            "Gap of 97 291 bytes in blocks 1 to 3, between record 1, which ends at byte 1007, \
             and record 2, which starts at byte 98 304"
        ]
    );
    assert_eq!(mend(&folder, &example()[..106_310]).1.len(), 98_298);
}

const REPLACED: &str = "Nothing of the gap is in the new journal, and nobody can tell";
const SEVERAL: &str = "Nothing of the gaps is in the new journal";
const TORN: &str = "The bad journal's end is torn";
const EXPECTED: &str = "the last record that can be read";
const LONG: &str = "A record of more than 4 194 304 bytes may be sound";
const WHAT: &str = "is it a journal?";
const GO_ON: &str = "To go on in the new journal, with the record that you type next:     \
                     mellansko append new";

/// Logs, and what is said of each.
fn cases() -> [(Vec<u8>, &'static [&'static str]); 7] {
    let (sound, orphan) = (fragment(FULL, b"sound"), fragment(LAST, b"orphan"));
    let gap = [&sound[..], &orphan, &sound].concat();
    let torn = [&sound[..], b"torn"].concat();
    let both = [&gap[..], b"torn"].concat();
    let first = fragment(FIRST, &[1; BLOCK - HEADER]);
    let middle = fragment(MIDDLE, &[1; BLOCK - HEADER]);
    let full = fragment(FULL, &[2; BLOCK - HEADER]);
    let over = [&first[..], &middle.repeat(128)].concat();
    let long = [&full[..], &over].concat();
    // Of 4 230 000 bytes, and sound, with nothing beside it that can be read.
    let alone = [&over[..], &fragment(LAST, &[1; 4_230_000 - 129 * 32_761])].concat();
    let then_torn = [&over[..], b"torn"].concat();
    [
        (gap, &[REPLACED, GO_ON]),
        (torn, &[TORN, EXPECTED, GO_ON]),
        (both, &[SEVERAL, TORN, EXPECTED, GO_ON]),
        (long, &[LONG, GO_ON]),
        (alone, &[REPLACED, LONG]),
        (then_torn, &[LONG, TORN]),
        (orphan, &[WHAT]),
    ]
}

#[test]
fn what_was_lost_decides_what_to_do() {
    let folder = Folder::new("mend-cases");
    for (log, says) in cases() {
        let (ran, _) = mend(&folder, &log);
        assert_eq!(ran.status, Some(1));
        let advice = ran.text().replace('\n', " ");
        for case in [REPLACED, SEVERAL, TORN, EXPECTED, LONG, WHAT, GO_ON] {
            assert_eq!(advice.contains(case), says.contains(&case), "{advice}");
        }
        // What may have been replaced comes before how to go on.
        assert!(!says.contains(&GO_ON) || advice.ends_with(&format!("{GO_ON} ")));
    }
}

/// In the new journal the blocks begin elsewhere, so it may not show there.
#[test]
fn equal_blocks_are_warned_of() {
    let folder = Folder::new("mend-equal");
    let (ran, _) = mend(&folder, &written(&vec![vec![7; BLOCK - HEADER]; 2]));
    let lines = ran.done().lines();
    assert!(lines[2].starts_with("WARNING: blocks 1 and 2 are equal"));
}

#[test]
fn a_long_list_is_cut_short_and_ends_in_the_answer_again() {
    let folder = Folder::new("mend-list");
    let log = [fragment(FULL, b"1"), fragment(LAST, b"2")].concat();
    let (ran, new) = mend(&folder, &log.repeat(30));
    assert_eq!(new, written(&vec![b"1"; 30]));
    let lines = ran.lines();
    let headings = lines.iter().filter(|line| line.starts_with("Gap of "));
    assert_eq!(headings.count(), 20);
    let more = lines.iter().position(|line| line.starts_with("And "));
    let [more, how, all, empty, kept, lost] = lines[more.expect("more")..][..6] else {
        panic!("{lines:?}");
    };
    assert_eq!(more, "And 10 more gaps, with 80 bytes in doubt.");
    assert_eq!(
        [how, all],
        ["To see all of them:", "    mellansko verify --all bad"]
    );
    assert_eq!([empty, kept, lost], ["", lines[0], lines[1]]);
    let help = run!("mend", "--help").text().replace('\n', " ");
    assert!(help.contains("the first twenty gaps"), "{help}");
    assert!(
        help.contains("mellansko verify --all BAD lists every one"),
        "{help}"
    );
    // A list that fits a screen does not.
    let (ran, _) = mend(&folder, &log.repeat(2));
    assert_eq!(ran.text().matches("bad: LOST: ").count(), 1);
}
