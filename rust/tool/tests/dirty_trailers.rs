//! Dirty trailers, where the bytes that fill up a block are not all zero (§14 of the format page): a
//! doubt for every command. No record has a byte there, so nothing says that one may have been lost
//! there; nor does anything say that none was.

#[macro_use]
mod common;

use common::expect::{certain, dumped, example, mended, written, Found};
use common::files::Folder;
use common::live::{Live, SIGTERM};
use common::report::{check, check_gaps};
use common::{ran, tool, Ran};
use reference::log::{fragment, BLOCK, FIRST, FULL, HEADER, LAST};
use std::fs::{self, File};
use std::io::Write;
use std::path::Path;
use std::sync::atomic::{AtomicUsize, Ordering};

/// The first log of §14.7: a dirty trailer between two records.
fn between() -> Vec<u8> {
    let mut log = example();
    log[98_300] = 1;
    log
}

/// The second: it ends inside the trailer.
fn cut() -> Vec<u8> {
    between()[..98_301].to_vec()
}

/// The last of its logs, with a record open at the trailer, of which one byte is not zero.
fn open(dirty: usize) -> Vec<u8> {
    let mut log = [fragment(FULL, &[b'A'; 32_748]), fragment(FIRST, b"")].concat();
    log.resize(BLOCK, 0);
    log[BLOCK - 6 + dirty] = 1;
    [log, fragment(LAST, b"")].concat()
}

/// What `dump` writes of each, by the tables there.
const BETWEEN: &str = "R 0 1007 1000\nR 1007 98298 97270\nS 98298 98304 9\n\
                       R 98304 106311 8000\nE clean\n";
const CUT: &str = "R 0 1007 1000\nR 1007 98298 97270\nS 98298 98301 9\nE clean\n";
const OPEN: &str = "R 0 32755 32748\nS 32755 32762 4\nS 32762 32768 9\nS 32768 32775 5\nE clean\n";

/// The answer, and where the trailer lies.
const VERDICT: &str = "IN DOUBT: 6 of its 106 311 bytes, in block 3 of 4. It has 3 readable \
                       records; the last is record 3, bytes 98 304 to 106 311.";
const GAP: &str = "\
Gap of 6 bytes in block 3, between record 2, which ends at byte 98 298, and record 3, which starts \
at byte 98 304
  - bytes 98 298 to 98 304 (6 bytes, block 3): the bytes that fill up a block are not all zero \
(reason 9, dirty trailer)
";

/// What it means.
const MEANING: &str = "\
The bytes that fill up a block belong to no record, and have to be zeros. Where they are not,
something wrote that should not have, as a fault of the disk or of a copy does. It may have changed
more than shows: compare the records with what you expect, or with another copy of the journal.
";
const SHORT: &str = "The bytes that fill up 1 block belong to no record, but are not all zero: \
                     something wrote there that should not have";

/// Runs a command on a journal that is called `log`, in a folder of its own.
fn on(log: &[u8], words: &[&str]) -> Ran {
    static RUNS: AtomicUsize = AtomicUsize::new(0);
    let run = RUNS.fetch_add(1, Ordering::Relaxed);
    let folder = Folder::new(&format!("dirty-trailers-{run}"));
    folder.file("log", log);
    ran(tool().args(words).current_dir(&*folder))
}

/// In doubt, and nothing to complain of.
fn doubted(ran: &Ran) -> &str {
    assert_eq!((ran.status, ran.err.as_str()), (Some(1), ""));
    ran.text()
}

/// That a text claims neither that something is lost, or may have been in the trailer, nor that
/// nothing is.
fn claims_no_loss(text: &str) {
    let text = text.to_lowercase();
    for claim in [
        "lost",
        "missing",
        "replaced",
        "newer",
        "nothing is",
        "whole",
    ] {
        assert!(!text.contains(claim), "{claim}: {text}");
    }
}

#[test]
fn verify_is_in_doubt_and_says_what_that_means() {
    let advice = format!(
        "\nWhat to do now: keep the file as it is.\n{MEANING}All that is in it:\n    \
         mellansko dump log\nThe records before and after the gap:\n    mellansko cat log 2\n    \
         mellansko cat log 3\nAll readable records into a new journal, which will not show that \
         anything was wrong:\n    mellansko mend log log-mended\n"
    );
    for words in [&["verify", "log"][..], &["verify", "--all", "log"]] {
        let verified = on(&between(), words);
        let said = doubted(&verified);
        assert_eq!(said, format!("log: {VERDICT}\n{GAP}{advice}"));
        claims_no_loss(said);
    }
    let piped = feed!(&between(); "verify", "-");
    let said = doubted(&piped);
    let begin = format!("standard input: {VERDICT}\n{GAP}\n");
    assert!(said.starts_with(&begin) && said.contains(MEANING), "{said}");
}

#[test]
fn verify_of_one_that_ends_inside_the_trailer() {
    let verified = on(&cut(), &["verify", "log"]);
    let said = doubted(&verified);
    let begin = "\
log: IN DOUBT: 3 of its 98 301 bytes, in block 3 of 3. It has 2 readable records; the last is \
record 2, bytes 1007 to 98 298.
Gap of 3 bytes in block 3, after the last readable record, number 2, which ends at byte 98 298
  - bytes 98 298 to 98 301 (3 bytes, block 3): the bytes that fill up a block are not all zero \
(reason 9, dirty trailer)

";
    assert!(said.starts_with(begin) && said.contains(MEANING), "{said}");
    claims_no_loss(said);
    // Before the byte it is zeros, and no damage.
    on(&cut()[..98_300], &["verify", "log"]).done();
}

/// Then a record breaks off there, and what that means is said as well.
#[test]
fn verify_of_one_with_a_record_open() {
    for dirty in 0..6 {
        let log = open(dirty);
        let verified = on(&log, &["verify", "log"]);
        let said = doubted(&verified);
        let lines = verified.lines();
        check("log", &log, &lines);
        assert_eq!(
            lines[1],
            "Gap of 20 bytes in blocks 1 to 2, after the last readable record, number 1, which \
             ends at byte 32 755"
        );
        let nobody = "nobody can tell how many records were written there";
        let said = said.replace('\n', " ");
        assert!(said.contains(nobody) && said.contains(&MEANING.replace('\n', " ")));
        assert!(said.contains("which will not show that anything is missing:"));
    }
}

#[test]
fn mend_counts_them_and_keeps_every_record() {
    let folder = Folder::new("dirty-trailers-mend");
    folder.file("bad", &between());
    let ran = ran(tool().args(["mend", "bad", "new"]).current_dir(&*folder));
    let said = doubted(&ran);
    let expected = format!(
        "new: kept 3 records, in 106 311 bytes.\n\
         bad: LEFT OUT: 6 of its 106 311 bytes, in block 3 of 4.\n{GAP}\n\
         What to do now: keep bad. It alone shows that something was wrong: in the new journal no \
         damage will\nbe found.\n{MEANING}\
         To go on in the new journal, with the record that you type next:\n    \
         mellansko append new\n"
    );
    assert_eq!(said, expected);
    claims_no_loss(said);
    let new = fs::read(folder.join("new")).expect("the new journal");
    assert!(new == example());
    run!("verify", folder.join("new")).done();
}

#[test]
fn mend_of_one_cut_and_of_one_with_a_record_open() {
    let folder = Folder::new("dirty-trailers-mend-more");
    for (log, says) in [
        (cut(), ": LEFT OUT: 3 of its 98 301 bytes, in block 3 of 3."),
        // A record breaks off there.
        (
            open(3),
            ": LOST: 20 of its 32 775 bytes, in blocks 1 to 2 of 2.",
        ),
    ] {
        let (bad, new) = (folder.file("bad", &log), folder.join("new"));
        let _ = fs::remove_file(&new);
        let ran = run!("mend", &bad, &new);
        doubted(&ran);
        let (found, lines) = (Found::in_log(&log), ran.lines());
        assert!(lines[1].ends_with(says), "{}", lines[1]);
        let rest = check_gaps(&found, &lines[2..]);
        let advice = format!("{}\n", rest.join("\n"));
        assert!(advice.contains(MEANING), "{advice}");
        assert!(fs::read(new).expect("the new journal") == mended(&found));
    }
}

#[test]
fn dump_lists_them_and_is_in_doubt() {
    for (log, says) in [(between(), BETWEEN), (cut(), CUT), (open(5), OPEN)] {
        assert_eq!(dumped(&log, 4_194_304), says);
        assert_eq!(doubted(&on(&log, &["dump", "log"])), says);
        assert_eq!(doubted(&feed!(&log; "dump", "-")), says);
    }
    let clean = on(&cut()[..98_300], &["dump", "log"]);
    assert_eq!(
        clean.done().text(),
        "R 0 1007 1000\nR 1007 98298 97270\nE clean\n"
    );
}

/// The lines that are there once so many bytes have come, and not before.
fn comes_with(log: &[u8], moments: &[(usize, &str)]) {
    let mut live = Live::run(tool().args(["dump", "-"]));
    let (mut came, mut lines) = (0, String::new());
    for &(moment, line) in moments {
        if came + 1 < moment {
            live.feed(&log[came..moment - 1]);
            live.has_written(&lines);
            live.is_quiet();
            came = moment - 1;
        }
        live.feed(&log[came..moment]);
        came = moment;
        lines += line;
    }
    live.has_written(&lines);
    assert_eq!(lines, certain(&log[..came], 4_194_304));
    live.feed(&log[came..]);
    let ran = live.end();
    assert_eq!(ran.text(), dumped(log, 4_194_304));
    assert_eq!((ran.status, ran.err.as_str()), (Some(1), ""));
}

/// With nothing open at the block's end; with a record open at the first byte that is not zero.
#[test]
fn dump_lists_them_as_soon_as_they_are_certain() {
    let (first, second) = ((1_007, "R 0 1007 1000\n"), (98_298, "R 1007 98298 97270\n"));
    let skipped = (98_304, "S 98298 98304 9\n");
    comes_with(&between(), &[first, second, skipped]);
    comes_with(&cut(), &[first, second]);
    comes_with(
        &open(0),
        &[
            (32_755, "R 0 32755 32748\n"),
            (32_763, "S 32755 32762 4\n"),
            (32_768, "S 32762 32768 9\n"),
        ],
    );
    comes_with(
        &open(5),
        &[
            (32_755, "R 0 32755 32748\n"),
            (32_768, "S 32755 32762 4\nS 32762 32768 9\n"),
        ],
    );
}

fn grow(file: &Path, bytes: &[u8]) {
    let mut file = File::options().append(true).open(file).expect("the file");
    file.write_all(bytes).expect("more");
}

#[test]
fn dump_follow_waits_for_the_end_of_the_block() {
    let folder = Folder::new("dirty-trailers-follow");
    let (log, cut) = (between(), cut());
    let file = folder.file("log", &cut);
    let mut live = Live::run(tool().args(["dump", "--follow"]).arg(&file));
    let before = "R 0 1007 1000\nR 1007 98298 97270\n";
    live.has_written(before);
    live.is_quiet();
    grow(&file, &log[cut.len()..98_304]);
    live.has_written(&format!("{before}S 98298 98304 9\n"));
    assert_eq!(live.killed(SIGTERM), "");
}

#[test]
fn the_map_shows_the_block_in_doubt() {
    for (log, cells) in [
        (between(), "block 1  R-R-D R"),
        (cut(), "block 1  R-R-D"),
        (open(2), "block 1  D D"),
    ] {
        let map = on(&log, &["map", "log"]);
        doubted(&map);
        assert_eq!(map.lines()[1], cells);
    }
    let map = on(&between(), &["map", "log"]);
    assert_eq!(map.lines()[0], format!("log: {VERDICT}"));
}

/// The record, and no word of others that may have been in six bytes.
#[test]
fn cat_gives_each_record_with_a_warning() {
    let log = between();
    for (number, (_, record)) in (1..).zip(Found::in_log(&log).records) {
        let cat = on(&log, &["cat", "log", &number.to_string()]);
        assert!(cat.out == record, "{number}");
        let says = format!(
            "mellansko: log: this is record {number} of those that can be read. {SHORT}. To see \
             where: mellansko verify log\n"
        );
        assert_eq!((cat.status, cat.err.as_str()), (Some(1), &*says));
        claims_no_loss(&cat.err);
    }
    let none = on(&log, &["cat", "log", "4"]);
    let says = "log: no record 4 can be read; only 3 records can be read. ";
    none.failed(2, &[says, SHORT]);
    claims_no_loss(&none.err);
    // With another doubt, each is said: the torn tail is what may hold more.
    let torn = [&log[..], b"torn"].concat();
    let cat = on(&torn, &["cat", "log", "1"]);
    assert_eq!(cat.status, Some(1));
    let after = " After it 4 bytes are in doubt, which may have held a newer one. ";
    cat.warned(&[after, SHORT]);
    let none = on(&torn, &["cat", "log", "4"]);
    none.failed(
        2,
        &[
            ". Another 4 bytes are in doubt, which may have held more. ",
            SHORT,
        ],
    );
}

/// As with any other damage: refused, and left as it is.
#[test]
fn append_refuses_the_journal() {
    let folder = Folder::new("dirty-trailers-append");
    let gap = "After what is in doubt, a record might not be found again.";
    for (log, why) in [
        (between(), format!("{SHORT}.")),
        (cut(), format!("{SHORT}.")),
        (open(1), gap.into()),
    ] {
        let file = folder.file("log", &log);
        let append = feed!(b"more"; "append", &file);
        assert_eq!((append.status, append.text()), (Some(1), ""));
        let lines: Vec<&str> = append.err.lines().collect();
        assert!(lines[0].ends_with(&why), "{}", lines[0]);
        let begin = format!("{}: nothing was appended: IN DOUBT: ", file.display());
        assert!(lines[0].contains(&begin), "{}", lines[0]);
        assert_eq!(lines.len(), 4);
        assert!(fs::read(&file).expect("the journal") == log);
    }
    let append = feed!(b"more"; "append", folder.file("log", &between()));
    claims_no_loss(&append.err);
    assert!(append
        .err
        .contains(", which will not show that anything was wrong: "));
    // Where the log ends in the zeros of a trailer, they are filled up and the record is found.
    let file = folder.file("log", &cut()[..98_300]);
    feed!(&[b'C'; 8_000]; "append", &file).done();
    assert!(fs::read(&file).expect("the journal") == example());
}

/// The torn tail may hold records, so what is said wherever that may be is said here as well; of a
/// gap that may have held some, nothing.
#[test]
fn with_a_torn_end_each_doubt_is_said() {
    let log = [&between()[..], b"torn"].concat();
    let verified = on(&log, &["verify", "log"]);
    let said = doubted(&verified).replace('\n', " ");
    check("log", &log, &verified.lines());
    for says in [
        &MEANING.replace('\n', " "),
        "when the power went",
        "which will not show that anything is missing:",
        "append --new",
    ] {
        assert!(said.contains(says), "{says}: {said}");
    }
    assert!(!said.contains("nobody can tell"), "{said}");
    let mended = on(&log, &["mend", "log", "new"]);
    let lost = ": LOST: 10 of its 106 315 bytes, in blocks 3 to 4 of 4; its end is torn";
    assert!(doubted(&mended).contains(lost), "{}", mended.text());
    assert!(mended.text().contains("shows that something was lost:"));
    let append = on(&log, &["append", "log"]);
    append.warned(&["After what is in doubt, a record might not be found again."]);
}

/// Any byte of a trailer of any length, and of two blocks.
#[test]
fn whichever_byte_it_is_the_trailer_alone_is_in_doubt() {
    let folder = Folder::new("dirty-trailers-bytes");
    for left in 1..HEADER {
        let log = written(&[vec![1; BLOCK - HEADER - left], vec![2; 10], vec![3; 10]]);
        for place in BLOCK - left..BLOCK {
            let mut log = log.clone();
            log[place] = 0x80;
            let found = Found::in_log(&log);
            assert_eq!(found.skips, [(BLOCK - left..BLOCK, 9)]);
            let file = folder.file("log", &log);
            let verified = run!("verify", &file);
            assert_eq!(verified.status, Some(1));
            check(file.to_str().expect("UTF-8"), &log, &verified.lines());
        }
    }
    let block = [fragment(FULL, &[1; BLOCK - HEADER - 3]), vec![0, 1, 0]].concat();
    let log = [&block[..], &block, &written(&[b"1"])].concat();
    let cat = on(&log, &["cat", "log", "1"]);
    cat.warned(&["The bytes that fill up 2 blocks belong to no record"]);
}

/// What help says of what fills up a block.
#[test]
fn help_says_that_they_are_in_doubt() {
    for (command, says) in [
        (
            "verify",
            "the up to six bytes that fill up a block, where nothing more fits, are zero.",
        ),
        (
            "verify",
            "Where they are not, something wrote to the file that should not have: that is in doubt \
             too.",
        ),
        (
            "dump",
            " 9 dirty trailer: the bytes that fill up a block are not all zero",
        ),
        ("map", "or is one of the zeros that fill up the block"),
    ] {
        let help = run!(command, "--help");
        let words: Vec<&str> = help.done().text().split_whitespace().collect();
        let words = words.join(" ");
        assert!(words.contains(says), "{command}: {says}");
        assert!(!words.contains("not judged"), "{words}");
    }
}
