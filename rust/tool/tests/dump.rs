//! `mellansko dump`: every answer of the reader, in its order.

#[macro_use]
mod common;

use common::damage::{dirty_logs, long_logs, mixed_log, small_logs};
use common::expect::{dumped, example, long_log, status_of_dump, written, Found};
use common::files::Folder;
use common::random::Random;
use common::{fed, tool};

/// Holds a dump of this log with this limit to the reference.
fn check(log: &[u8], limit: usize) {
    let ran = fed(
        tool().args(["dump", "--limit", &limit.to_string(), "-"]),
        log,
    );
    let expected = dumped(log, limit);
    assert_eq!(ran.text(), expected, "{limit} {log:x?}");
    assert_eq!(ran.err, "");
    let status = status_of_dump(&expected);
    assert_eq!(ran.status, Some(status), "{expected}");
}

#[test]
fn the_example_is_listed_as_the_format_page_says() {
    let folder = Folder::new("dump-example");
    let file = folder.file("log", &example());
    let ran = run!("dump", "--limit", "24576", &file);
    assert_eq!((ran.status, ran.err.as_str()), (Some(1), ""));
    assert_eq!(
        ran.text(),
        "R 0 1007 1000\n\
         S 1007 32768 7\n\
         S 32768 65536 5\n\
         S 65536 98298 5\n\
         R 98304 106311 8000\n\
         E clean\n"
    );
    let all = "R 0 1007 1000\nR 1007 98298 97270\nR 98304 106311 8000\nE clean\n";
    assert_eq!(run!("dump", &file).done().text(), all);
    let torn = fed(tool().args(["dump", "-"]), &example()[..106_310]);
    assert_eq!(torn.status, Some(1));
    assert!(torn.text().ends_with("R 1007 98298 97270\nE torn 98304\n"));
}

#[test]
fn damaged_logs_are_listed_as_the_reference_reads_them() {
    let mut random = Random::new();
    println!("{random}");
    for log in small_logs(&mut random).iter().step_by(3) {
        check(log, 4_194_304);
    }
    for log in long_logs(&mut random, 20).iter().chain(&dirty_logs()) {
        check(log, 4_194_304);
    }
    check(&mixed_log(), 4_194_304);
    check(&long_log(), 4_194_304);
}

#[test]
fn a_record_of_the_limit_is_listed_and_a_longer_one_skipped() {
    let mut random = Random::new();
    println!("{random}");
    let log = written(&[
        &b""[..],
        b"1",
        b"12",
        &[3; 1_000],
        &[4; 40_000],
        &vec![5; 4_194_304],
    ]);
    for limit in [0, 1, 2, 999, 1_000, 39_999, 40_000, 4_194_303, 4_194_304] {
        check(&log, limit);
    }
    for log in long_logs(&mut random, 20) {
        let bits = random.below(17);
        let limit = random.below(1 << bits);
        check(&log, limit);
        let lengths = Found::in_log(&log).records;
        let longest = lengths.iter().map(|(_, bytes)| bytes.len()).max();
        check(&log, longest.unwrap_or(0).min(4_194_304));
    }
}

#[test]
fn a_limit_above_the_highest_is_refused_with_5() {
    let folder = Folder::new("dump-limit");
    let file = folder.file("times", &example());
    for limit in [
        "4194305",
        "1073741825",
        "18446744073709551616",
        "99999999999999999999999",
    ] {
        let ran = run!("dump", "--limit", limit, &file);
        assert_eq!(ran.text(), "X 5\n");
        ran.complained(2, &["times", "4 194 304", "5"]);
    }
}

#[test]
fn a_log_one_byte_too_long_is_refused_with_1_whatever_the_limit() {
    let folder = Folder::new("dump-long");
    let file = folder.zeros("times", 1_073_741_825);
    for limit in ["0", "4194304", "4194305"] {
        let ran = run!("dump", "--limit", limit, &file);
        assert_eq!(ran.text(), "X 1\n");
        ran.complained(2, &["times", "1 073 741 824", "1"]);
    }
}

#[test]
fn an_option_may_stand_anywhere_and_a_name_begin_with_a_dash() {
    let folder = Folder::new("dump-words");
    let log = written(&[&[1; 10][..], &[2; 20]]);
    folder.file("-times", &log);
    folder.file("times", &log);
    let limited = dumped(&log, 10);
    let words: [&[&str]; 6] = [
        &["--limit", "10", "times"],
        &["--limit=10", "times"],
        &["times", "--limit", "10"],
        &["times", "--limit=10"],
        &["--limit=10", "--", "-times"],
        &["--limit", "10", "--", "times"],
    ];
    for words in words {
        let ran = common::ran(tool().arg("dump").args(words).current_dir(&*folder));
        assert_eq!((ran.status, ran.text()), (Some(1), limited.as_str()));
    }
}
