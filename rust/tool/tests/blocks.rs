//! `mellansko verify` on journals whose blocks were left out, repeated or replaced: what no reader can
//! tell is not claimed, and equal blocks are warned of.

#[macro_use]
mod common;

use common::expect::{long_log, numbers, written, Found};
use common::files::Folder;
use common::report::check;
use common::{fed, ran, tool, Ran};
use reference::log::{BLOCK, HEADER};
use reference::samples;
use std::time::{Duration, Instant};

fn verified(log: &[u8]) -> Ran {
    fed(tool().args(["verify", "-"]), log)
}

fn block(log: &[u8], number: usize) -> Vec<u8> {
    log[(number - 1) * BLOCK..number * BLOCK].to_vec()
}

fn warnings(ran: &Ran) -> Vec<String> {
    let lines = ran.lines().into_iter();
    let warnings = lines.filter(|line| line.starts_with("WARNING: "));
    warnings.map(String::from).collect()
}

/// The day's journal with its blocks in this order.
fn reordered(order: &[usize]) -> Vec<u8> {
    let day = samples::clean().log;
    let whole = order.iter().flat_map(|&number| block(&day, number));
    let rest = &day[day.len() / BLOCK * BLOCK..];
    whole.chain(rest.iter().copied()).collect()
}

/// How many records fewer than in the day's journal there are.
fn fewer(log: &[u8]) -> usize {
    let records = |log: &[u8]| Found::in_log(log).records.len();
    records(&samples::clean().log) - records(log)
}

/// What the tool says of a journal in which the format shows no damage: the records that there are,
/// which are to be compared.
fn check_unseen(log: &[u8]) -> Ran {
    assert!(Found::in_log(log).is_whole());
    let ran = verified(log);
    ran.done();
    check("standard input", log, &ran.lines());
    assert!(ran
        .text()
        .contains("Compare the records with what you expect"));
    ran
}

#[test]
fn a_block_replaced_by_the_one_before_gets_a_warning() {
    let log = reordered(&[1, 2, 2, 4]);
    assert!(fewer(&log) > 300, "records that nobody can name");
    let warnings = warnings(&check_unseen(&log));
    let [warning] = &warnings[..] else {
        panic!("{warnings:?}");
    };
    assert_eq!(numbers(warning), [2, 3], "{warning}");
    assert!(warning.contains("copied over the other"), "{warning}");
    assert!(warning.contains("records are missing which nobody can name"));
}

/// The record that it is a part of is then longer than what was written, and reads as one.
#[test]
fn a_block_that_is_there_twice_gets_a_warning() {
    let log = reordered(&[1, 2, 2, 3, 4]);
    assert_eq!(fewer(&log), 0);
    let warnings = warnings(&check_unseen(&log));
    assert_eq!(warnings.len(), 1);
    assert_eq!(numbers(&warnings[0]), [2, 3], "{warnings:?}");
    let says = "put in twice: then records are repeated, or longer than they were";
    assert!(warnings[0].contains(says), "{warnings:?}");
    // As one is: the inner part of it is there twice.
    let longest = |log: &[u8]| {
        let records = Found::in_log(log).records.into_iter();
        records.map(|(_, bytes)| bytes.len()).max()
    };
    let day = longest(&samples::clean().log).expect("records");
    assert_eq!(longest(&log), Some(day + BLOCK - HEADER));
}

/// Two halves of two records then read as one: no damage shows, and no two blocks are equal. The
/// number of records alone tells, and whoever wrote them.
#[test]
fn a_block_that_is_left_out_shows_in_the_number_of_records_alone() {
    let log = reordered(&[1, 2, 4]);
    assert!(fewer(&log) > 300);
    assert_eq!(warnings(&check_unseen(&log)), [""; 0]);
}

/// Where a record is cut in two at the seam, that shows.
#[test]
fn a_seam_inside_a_record_is_a_gap() {
    for order in [&[1, 3, 4][..], &[2, 3, 4], &[1, 2, 3]] {
        let log = reordered(order);
        let found = Found::in_log(&log);
        let ran = verified(&log);
        assert_eq!(ran.status, Some(found.status()));
        check("standard input", &log, &ran.lines());
        assert_eq!(warnings(&ran), [""; 0]);
    }
    // The second block is the inner part of a record, so without the first it has no beginning.
    assert!(!Found::in_log(&reordered(&[2, 3, 4])).is_whole());
}

#[test]
fn a_warning_changes_no_status_and_is_counted_among_several() {
    let folder = Folder::new("blocks-status");
    let sound = folder.file("sound", &samples::clean().log);
    let twice = folder.file("twice", &reordered(&[1, 2, 2, 3, 4]));
    let mut log = reordered(&[1, 2, 2, 3, 4]);
    log[100] ^= 1;
    let doubtful = folder.file("doubtful", &log);
    let ran_both = ran(tool().arg("verify").args([&sound, &twice]));
    let first = ran_both.done().lines()[0];
    assert!(
        first.starts_with("No damage found in any of 2 journals. "),
        "{first}"
    );
    assert_eq!(numbers(first), [2, 1], "{first}");
    let in_doubt = run!("verify", &doubtful);
    assert_eq!((in_doubt.status, warnings(&in_doubt).len()), (Some(1), 1));
}

/// Blocks of a constant record are equal and right; two of the same page are enough to warn.
#[test]
fn however_many_blocks_are_equal_there_is_one_warning() {
    for records in [2, 3, 20, 500] {
        let log = written(&vec![vec![7; BLOCK - HEADER]; records]);
        let ran = verified(&log);
        ran.done();
        let warnings = warnings(&ran);
        let expected = match records {
            2 => vec![1, 2],
            _ => vec![records - 1, 2, 1],
        };
        assert_eq!(warnings.len(), 1);
        assert_eq!(numbers(&warnings[0]), expected, "{warnings:?}");
        assert!(warnings[0].len() < 400, "{warnings:?}");
    }
    // The inner parts of one long record.
    let ran = verified(&written(&[vec![7; 5 * BLOCK]]));
    assert_eq!(numbers(&warnings(&ran)[0]), [3, 3, 2]);
}

/// Zeros and other fillings are no data, a block that is not all there is none, and one byte is
/// enough to differ.
#[test]
fn only_whole_blocks_with_data_are_compared() {
    for filling in [0, 0xff] {
        let ran = verified(&vec![filling; 4 * BLOCK]);
        assert_eq!((ran.status, warnings(&ran).len()), (Some(1), 0));
    }
    let equal = written(&vec![vec![7; BLOCK - HEADER]; 2]);
    assert_eq!(warnings(&verified(&equal)).len(), 1);
    assert_eq!(warnings(&verified(&equal[..equal.len() - 1])), [""; 0]);
    for place in [BLOCK, 2 * BLOCK - 1] {
        let mut log = equal.clone();
        log[place] ^= 1;
        assert_eq!(warnings(&verified(&log)), [""; 0]);
    }
}

#[test]
fn a_long_log_is_compared_soon() {
    let begun = Instant::now();
    let mut log = long_log();
    let last = log.len() - BLOCK;
    let (front, back) = log.split_at_mut(last);
    back.copy_from_slice(&front[5 * BLOCK..6 * BLOCK]);
    assert_eq!(numbers(&warnings(&verified(&log))[0]), [6, 512]);
    assert!(begun.elapsed() < Duration::from_secs(20));
}
