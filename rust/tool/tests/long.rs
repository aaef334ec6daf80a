//! `mellansko dump --long`: how each record was stored (docs/FORMAT.md, §16), in two numbers more. All
//! other lines, and all lines without it, are as they are.

#[macro_use]
mod common;

use common::damage::{dirty_logs, long_logs, mixed_log, small_logs};
use common::expect::{certain_long, dumped, dumped_long, example, status_of_dump, written};
use common::files::Folder;
use common::live::{Live, SIGINT};
use common::random::Random;
use common::{fed, tool};
use reference::log::{fragment, BLOCK, FIRST, FULL, HEADER, LAST, MIDDLE};
use std::fs::{self, OpenOptions};
use std::io::Write;
use std::path::Path;

/// Holds the long lines of this log with this limit, and the short ones, to the reference.
fn check(log: &[u8], limit: usize) {
    let words = ["dump", "--limit", &limit.to_string(), "-"];
    let [plain, long] = [&[][..], &["--long"]].map(|more| fed(tool().args(words).args(more), log));
    let [short_lines, long_lines] = [dumped(log, limit), dumped_long(log, limit)];
    assert_eq!(plain.text(), short_lines, "{limit} {log:x?}");
    assert_eq!(long.text(), long_lines, "{limit} {log:x?}");
    let status = Some(status_of_dump(&short_lines));
    assert_eq!((long.status, plain.status), (status, status));
    assert_eq!((long.err, plain.err), (String::new(), String::new()));
}

/// Records of two fragments and more, shorter than their blocks, some of them empty; one after a
/// record that breaks off, and one across a trailer.
fn in_fragments() -> Vec<u8> {
    let parts = [
        (FIRST, "LW"),
        (LAST, "10-1"),
        (FIRST, "broken"),
        (MIDDLE, "off"),
        (FIRST, ""),
        (MIDDLE, ""),
        (MIDDLE, "0.9"),
        (LAST, "137"),
        (MIDDLE, "orphan"),
    ];
    let parts = parts.map(|(kind, data)| fragment(kind, data.as_bytes()));
    let mut log = parts.concat();
    let rest = BLOCK - log.len() - 2 * HEADER - 5;
    log.extend(fragment(FULL, &vec![7; rest]));
    log.extend(fragment(FIRST, b""));
    log.resize(BLOCK, 0);
    log.extend(fragment(LAST, b"1"));
    log
}

/// What a reader of the lines sees: without this a number that stands elsewhere would pass, if the
/// reference had it there too.
#[test]
fn the_examples_are_listed_as_the_format_page_says() {
    let folder = Folder::new("long-example");
    let file = folder.file("log", &example());
    let ran = run!("dump", "--long", &file);
    assert_eq!(
        ran.done().text(),
        "R 0 1007 1000 1 0\n\
         R 1007 98298 97270 3 65536\n\
         R 98304 106311 8000 1 98304\n\
         E clean\n"
    );
    let ran = fed(tool().args(["dump", "--long", "-"]), &in_fragments());
    assert_eq!((ran.status, ran.err.as_str()), (Some(1), ""));
    assert_eq!(
        ran.text(),
        "R 0 20 6 2 9\n\
         S 20 43 4\n\
         R 43 77 6 4 67\n\
         S 77 90 5\n\
         R 90 32756 32659 1 90\n\
         R 32756 32776 1 2 32768\n\
         E clean\n"
    );
}

#[test]
fn the_samples_are_listed_as_the_reference_reads_them() {
    let samples = Path::new(env!("CARGO_MANIFEST_DIR")).join("../../samples");
    let mut several = 0;
    for name in ["clean", "damaged", "torn", "leveldb", "old_writer"] {
        let file = samples.join(format!("{name}.log"));
        let lines = dumped_long(&fs::read(&file).expect("a sample"), 4_194_304);
        assert_eq!(run!("dump", "--long", &file).text(), lines, "{name}");
        let is_one = |line: &&str| line.split(' ').nth(4) == Some("1");
        let records = lines.lines().filter(|line| line.starts_with('R'));
        several += records.filter(|line| !is_one(line)).count();
    }
    assert!(several > 0, "no sample has a record of several fragments");
}

#[test]
fn damaged_logs_are_listed_as_the_reference_reads_them() {
    let mut random = Random::new();
    println!("{random}");
    for log in small_logs(&mut random).iter().step_by(7) {
        check(log, 4_194_304);
    }
    for log in long_logs(&mut random, 6).iter().chain(&dirty_logs()) {
        check(log, 4_194_304);
    }
    for limit in [4_194_304, 20_000, 5, 0] {
        check(&mixed_log(), limit);
        check(&in_fragments(), limit);
    }
}

/// Over a pipe that pauses, each line comes with the last byte that it takes.
#[test]
fn a_line_comes_as_soon_as_it_is_certain() {
    let log = &in_fragments()[..90];
    let mut live = Live::run(tool().args(["dump", "--long", "-"]));
    live.in_drops_by(certain_long, log, Live::feed);
    assert_eq!(live.end().text(), dumped_long(log, 4_194_304));
}

/// A record that is open when the file ends goes on with its count when more is written.
#[test]
fn a_file_that_grows_is_followed() {
    let folder = Folder::new("long-follow");
    let log = in_fragments();
    for there in [0, 15, 60, BLOCK - 3] {
        let file = folder.file("log", &log[..there]);
        let follow = ["dump", "--follow", "--long"];
        let mut live = Live::run(tool().args(follow).arg(&file));
        live.has_written(&certain_long(&log[..there], 4_194_304));
        live.is_quiet();
        let grown = OpenOptions::new().append(true).open(&file);
        let written = grown.expect("the file").write_all(&log[there..]);
        written.expect("room");
        live.has_written(&certain_long(&log, 4_194_304));
        assert_eq!(live.killed(SIGINT), "");
    }
}

#[test]
fn it_may_stand_anywhere() {
    let folder = Folder::new("long-words");
    let log = written(&[&[1; 10][..], &[2; 20]]);
    folder.file("times", &log);
    let words: [&[&str]; 4] = [
        &["--long", "--limit", "10", "times"],
        &["--limit=10", "times", "--long"],
        &["times", "--long", "--limit=10"],
        &["--long", "--limit", "10", "--", "times"],
    ];
    for words in words {
        let ran = common::ran(tool().arg("dump").args(words).current_dir(&*folder));
        assert_eq!(ran.text(), "R 0 17 10 1 0\nS 17 44 7\nE clean\n");
    }
    // After -- it is a file's name.
    let ran = common::ran(tool().args(["dump", "--", "--long"]).current_dir(&*folder));
    ran.failed(2, &["--long", "no such file"]);
}

/// The last line of what is refused has one number, as without it.
#[test]
fn refusals_are_as_they_are() {
    let folder = Folder::new("long-refused");
    let file = folder.file("times", &example());
    let ran = run!("dump", "--long", "--limit", "4194305", &file);
    assert_eq!(ran.text(), "X 5\n");
    ran.complained(2, &["times", "4 194 304", "refusal 5"]);
    let ran = run!("dump", "--long", folder.zeros("long", 1_073_741_825));
    assert_eq!(ran.text(), "X 1\n");
    ran.complained(2, &["long", "refusal 1"]);
}

#[test]
fn help_names_the_two_numbers() {
    let ran = run!("dump", "--help");
    let help = ran.done().text();
    for said in ["[--long]", "  --long ", "FRAGMENTS", "HEADER"] {
        assert!(help.contains(said), "{said}: {help}");
    }
}
