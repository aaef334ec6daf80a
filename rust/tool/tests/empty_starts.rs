//! Empty starts of records, as early LevelDB writers left them: they count as no loss, so no command
//! is in doubt, and `verify`, `mend` and `dump` name them.

#[macro_use]
mod common;

use common::expect::{add, dumped, grouped, mended, numbers, status_of_dump, written, Found};
use common::files::Folder;
use common::live::{Live, SIGTERM};
use common::report::{check, check_empty_starts, check_gaps, check_verdict, figures_of_doubt};
use common::{ran, tool, Ran};
use reference::log::{fragment, BLOCK, FIRST, FULL, HEADER, LAST, MIDDLE};
use std::fs;
use std::sync::atomic::{AtomicUsize, Ordering};

/// A block of a record that leaves seven bytes, which an empty FIRST fills.
fn block_of(byte: u8) -> Vec<u8> {
    let record = fragment(FULL, &[byte; BLOCK - 2 * HEADER]);
    [record, fragment(FIRST, b"")].concat()
}

fn first_block() -> Vec<u8> {
    block_of(b'A')
}

/// Two journals of an early writer: after that block the record begins afresh, with a FULL in one
/// of them and with a FIRST in the other (§13.7 of the format page).
fn old_journals() -> [Vec<u8>; 2] {
    let first = fragment(FIRST, &[b'B'; BLOCK - HEADER]);
    let last = fragment(LAST, &[b'B'; 40_000 - (BLOCK - HEADER)]);
    [
        [first_block(), fragment(FULL, &[b'B'; 1_000])].concat(),
        [first_block(), first, last].concat(),
    ]
}

/// What is said of either, besides the answer.
const ONE: &str = "1 empty start, bytes 32 761 to 32 768 (7 bytes, block 1): a record was begun \
                   there with no bytes, and then begun again. Early LevelDB writers did so at the \
                   ends of blocks; as far as a reader can tell, nothing is lost (reason 8, empty \
                   start).";

/// What `mend` adds to that.
const NONE: &str = "The new journal has none.";

const COMPARE: &str = "\
Compare the records with what you expect: records cut off at the end, and blocks left out, repeated
or replaced by sound ones, may not show.
";

/// What is said of them where no damage is found.
fn verdicts() -> [&'static str; 2] {
    [
        "no damage found in its 33 775 bytes, 2 blocks. It has 2 records; the last is record 2, \
         bytes 32 768 to 33 775.",
        "no damage found in its 72 782 bytes, 3 blocks. It has 2 records; the last is record 2, \
         bytes 32 768 to 72 782.",
    ]
}

/// Runs a command on a journal that is called `log`, in a folder of its own.
fn on(log: &[u8], words: &[&str]) -> Ran {
    static RUNS: AtomicUsize = AtomicUsize::new(0);
    let run = RUNS.fetch_add(1, Ordering::Relaxed);
    let folder = Folder::new(&format!("empty-starts-{run}"));
    folder.file("log", log);
    ran(tool().args(words).current_dir(&*folder))
}

#[test]
fn verify_finds_no_damage_and_names_them() {
    for (log, verdict) in old_journals().iter().zip(verdicts()) {
        let says = format!("log: {verdict}\n{ONE}\n{COMPARE}");
        assert_eq!(on(log, &["verify", "log"]).done().text(), says);
        assert_eq!(on(log, &["verify", "--all", "log"]).done().text(), says);
        let piped = feed!(log; "verify", "--all", "-");
        assert_eq!(
            piped.done().text().strip_prefix("standard input"),
            says.strip_prefix("log")
        );
    }
}

#[test]
fn of_several_journals_each_names_its_own() {
    let folder = Folder::new("empty-starts-several");
    for (name, log) in ["full", "first"].iter().zip(old_journals()) {
        folder.file(name, &log);
    }
    folder.file("other", &written(&[b"1"]));
    let mut verify = tool();
    verify.args(["verify", "full", "other", "first"]);
    let ran = ran(verify.current_dir(&*folder));
    let [full, first] = verdicts();
    let lines = ran.done().lines();
    assert_eq!(lines[0], "No damage found in any of 3 journals.");
    assert_eq!(lines[1..3], [&format!("full: {full}"), ONE]);
    assert!(lines[3].starts_with("other: no damage found"));
    assert_eq!(lines[4..6], [&format!("first: {first}"), ONE]);
    assert_eq!(ran.text().matches("empty start,").count(), 2);
}

#[test]
fn mend_leaves_nothing_out_and_names_them() {
    let folder = Folder::new("empty-starts-mend");
    let kept = ["33 775", "72 782"];
    for ((log, verdict), kept) in old_journals().iter().zip(verdicts()).zip(kept) {
        folder.file("bad", log);
        let _ = fs::remove_file(folder.join("new"));
        let ran = ran(tool().args(["mend", "bad", "new"]).current_dir(&*folder));
        let says = format!(
            "new: kept 2 records, in {kept} bytes.\n\
             bad: nothing was left out: {verdict}\n{ONE} {NONE}\n{COMPARE}"
        );
        assert_eq!(ran.done().text(), says);
        // Its own writer has no such starts.
        let new = fs::read(folder.join("new")).expect("the new journal");
        assert!(new == mended(&Found::in_log(log)));
        let verified = run!("verify", folder.join("new"));
        assert!(!verified.done().text().contains("empty start"));
    }
}

#[test]
fn dump_lists_them_and_is_not_in_doubt() {
    let [full, first] = old_journals();
    for (log, last) in [(full, "33775 1000"), (first, "72782 40000")] {
        let says = format!("R 0 32761 32754\nS 32761 32768 8\nR 32768 {last}\nE clean\n");
        assert_eq!(on(&log, &["dump", "log"]).done().text(), says);
        assert_eq!(feed!(&log; "dump", "-").done().text(), says);
    }
}

#[test]
fn dump_lists_them_as_soon_as_the_record_begins_afresh() {
    let empty = fragment(FIRST, b"");
    let log = [&empty[..], &empty, &fragment(LAST, b"")].concat();
    let mut live = Live::run(tool().args(["dump", "-"]));
    live.feed(&log[..13]);
    live.is_quiet();
    live.feed(&log[13..14]);
    live.has_written("S 0 7 8\n");
    live.is_quiet();
    live.feed(&log[14..]);
    live.has_written("S 0 7 8\nR 7 21 0\n");
    let ran = live.end();
    assert_eq!((ran.status, ran.err.as_str()), (Some(0), ""));
    assert_eq!(ran.text(), "S 0 7 8\nR 7 21 0\nE clean\n");

    let folder = Folder::new("empty-starts-follow");
    let file = folder.file("log", &log);
    let mut live = Live::run(tool().args(["dump", "--follow"]).arg(&file));
    live.has_written("S 0 7 8\nR 7 21 0\n");
    assert_eq!(live.killed(SIGTERM), "");
}

/// It says what may be missing, and nothing is.
#[test]
fn cat_gives_the_records_and_is_silent() {
    for log in old_journals() {
        for (number, (_, record)) in (1..).zip(Found::in_log(&log).records) {
            let cat = on(&log, &["cat", "log", &number.to_string()]);
            assert!(cat.done().out == record, "{number}");
        }
        let none = on(&log, &["cat", "log", "3"]);
        none.failed(2, &["no record 3 can be read; only 2 records can be read"]);
        assert!(!none.err.contains("doubt"), "{}", none.err);
    }
}

#[test]
fn append_takes_the_journal_for_one_without_damage() {
    let folder = Folder::new("empty-starts-append");
    for log in old_journals() {
        let file = folder.file("log", &log);
        let said = feed!(b"more"; "append", &file);
        assert!(said
            .done()
            .text()
            .contains(": record 3 appended, of 4 bytes"));
        let mut longer = log;
        add(&mut longer, b"more");
        assert!(fs::read(&file).expect("the journal") == longer);
        let verified = run!("verify", &file);
        assert_eq!(verified.done().lines()[1], ONE);
        assert!(verified.lines()[0].contains(" It has 3 records; "));
    }
}

#[test]
fn the_map_shows_no_doubt() {
    let rows = ["block 1  R R", "block 1  R R-R"];
    for ((log, verdict), row) in old_journals().iter().zip(verdicts()).zip(rows) {
        let map = on(log, &["map", "log"]);
        assert_eq!(map.done().lines()[..2], [&format!("log: {verdict}"), row]);
    }
}

/// Empty starts as the range may have them: in the midst of a block, of several fragments, up to
/// another that is empty too, and over a block's end with a trailer in it.
fn harmless() -> Vec<(Vec<u8>, &'static str)> {
    let (empty, middle) = (fragment(FIRST, b""), fragment(MIDDLE, b""));
    let full = fragment(FULL, b"1");
    // Three bytes of its block are left after the empty start.
    let block = fragment(FULL, &[2; BLOCK - 2 * HEADER - 3]);
    let over = [&block[..], &empty, &[0; 3], &middle, &full].concat();
    vec![
        (
            [&empty[..], &full].concat(),
            "1 empty start, bytes 0 to 7 (7 bytes, block 1): a record was",
        ),
        (
            [&full[..], &empty, &middle, &middle, &full].concat(),
            "1 empty start, bytes 8 to 29 (21 bytes, block 1): a record was",
        ),
        (
            [&empty[..], &empty, &middle, &empty, &full].concat(),
            "3 empty starts, 28 bytes in all; the first is bytes 0 to 7 (7 bytes, block 1). In \
             each a record was begun with no bytes, and then begun again. Early LevelDB writers \
             did so at the ends of blocks; as far as a reader can tell, nothing is lost (reason \
             8, empty start). The command dump lists each.",
        ),
        (
            over,
            "1 empty start, bytes 32 758 to 32 775 (17 bytes, blocks 1 to 2): a record was",
        ),
    ]
}

#[test]
fn wherever_they_stand_nothing_is_in_doubt() {
    let folder = Folder::new("empty-starts-places");
    for (log, says) in harmless() {
        let file = folder.file("log", &log);
        let verified = run!("verify", &file);
        let lines = verified.done().lines();
        check(file.to_str().expect("UTF-8"), &log, &lines);
        assert!(lines[1].starts_with(says), "{}", lines[1]);
        let dump = run!("dump", &file);
        assert_eq!(dump.done().text(), dumped(&log, 4_194_304));
        run!("cat", &file, "1").done();
        // Nor does a record run on where an empty start does.
        let map = run!("map", &file);
        assert!(!map.done().lines()[1].contains(['D', 'T', 'X', '-']));
        let _ = fs::remove_file(folder.join("new"));
        run!("mend", &file, folder.join("new")).done();
        feed!(b"more"; "append", &file).done();
    }
}

/// Journals in doubt with empty starts in them: how many, the bytes in doubt, and what is in each
/// block.
fn with_damage() -> Vec<(Vec<u8>, usize, usize, &'static str)> {
    let (empty, full) = (fragment(FIRST, b""), fragment(FULL, b"1"));
    let (orphan, begun) = (fragment(LAST, b"orphan"), fragment(FIRST, b"1"));
    let unknown = fragment(9, b"");
    // One gap with an empty start in its midst, one before it, and one after it.
    let gap = [&orphan[..], &empty, &begun, &unknown].concat();
    let around = [&full[..], &empty, &full, &gap, &empty, &full].concat();
    // Damage in block 2 alone, and empty starts at the ends of blocks 1 and 3.
    let mut blocks = [first_block(), written(&[vec![3; BLOCK - HEADER]])].concat();
    blocks.extend(block_of(b'C'));
    blocks.extend(&full);
    blocks[BLOCK + BLOCK / 2] ^= 1;
    // A sound FULL is what comes after the empty start, so that is one all the same.
    let second = [&first_block()[..], &full, &orphan].concat();
    // After it, the record breaks off at the journal's end.
    let torn = [&first_block()[..], &begun].concat();
    vec![
        (around, 3, 28, "D"),
        (blocks, 1, BLOCK + 7, "D D R R"),
        (second, 1, 13, "R D"),
        (torn, 1, 8, "R T"),
    ]
}

#[test]
fn what_else_is_in_doubt_stays_so() {
    let folder = Folder::new("empty-starts-doubt");
    for (log, starts, doubt, cells) in with_damage() {
        let found = Found::in_log(&log);
        let bytes: usize = found.doubtful().iter().map(|range| range.len()).sum();
        assert_eq!((found.empty_starts.len(), bytes), (starts, doubt));
        let file = folder.file("log", &log);
        let name = file.to_str().expect("UTF-8");
        for words in [&["verify"][..], &["verify", "--all"]] {
            let verified = ran(tool().args(words).arg(&file));
            assert_eq!(verified.status, Some(1));
            check(name, &log, &verified.lines());
        }
        let dump = run!("dump", &file);
        let lines = dumped(&log, 4_194_304);
        assert_eq!((dump.text(), dump.status), (&*lines, Some(1)));
        assert_eq!(status_of_dump(&lines), 1);
        let map = run!("map", &file);
        assert_eq!(map.status, Some(1));
        assert_eq!(map.lines()[1], format!("block 1  {cells}"));
        let cat = run!("cat", &file, "1");
        assert_eq!(cat.status, Some(1));
        let after = format!(" After it {} bytes are in doubt", grouped(doubt));
        assert!(cat.err.contains(&after), "{}", cat.err);
        let append = feed!(b"more"; "append", &file);
        assert_eq!(append.status, Some(1));
        assert!(fs::read(&file).expect("the journal") == log);
        check_mended(&folder, &log);
    }
}

/// Holds what mending a log in doubt says and makes to the reference.
fn check_mended(folder: &Folder, log: &[u8]) {
    let (bad, new) = (folder.file("bad", log), folder.join("new"));
    let _ = fs::remove_file(&new);
    let ran = run!("mend", &bad, &new);
    assert_eq!((ran.status, ran.err.as_str()), (Some(1), ""));
    let (found, lines) = (Found::in_log(log), ran.lines());
    assert!(lines[1].contains(": LOST: "), "{}", lines[1]);
    assert_eq!(numbers_after_name(lines[1]), figures_of_doubt(&found));
    check_gaps(&found, check_empty_starts(&found, &lines[2..]));
    assert!(fs::read(new).expect("the new journal") == mended(&found));
}

fn numbers_after_name(line: &str) -> Vec<usize> {
    numbers(line.split_once(": LOST: ").expect("what was lost").1)
}

/// What interrupts the record is not sound, or is neither a FULL nor a FIRST, or does not come.
#[test]
fn an_empty_first_that_is_interrupted_by_anything_else_is_in_doubt() {
    let full = fragment(FULL, b"1");
    let mut changed = full.clone();
    changed[HEADER] ^= 1;
    let mut too_long = full.clone();
    too_long[5] = 0xff;
    for (after, end) in [
        (changed, "S 32761 32768 4\nS 32768 32776 3\nE clean\n"),
        (too_long, "S 32761 32768 4\nS 32768 32776 1\nE clean\n"),
        (vec![0; 7], "S 32761 32768 4\nS 32768 32775 2\nE clean\n"),
        (
            fragment(9, b""),
            "S 32761 32768 4\nS 32768 32775 6\nE clean\n",
        ),
        (full[..7].to_vec(), "E torn 32761\n"),
        (Vec::new(), "E torn 32761\n"),
    ] {
        let log = [first_block(), after].concat();
        let dump = on(&log, &["dump", "log"]);
        assert_eq!(dump.text(), format!("R 0 32761 32754\n{end}"));
        for words in [
            &["dump", "log"][..],
            &["verify", "log"],
            &["map", "log"],
            &["cat", "log", "1"],
            &["append", "log"],
            &["mend", "log", "new"],
        ] {
            let ran = on(&log, words);
            assert_eq!(ran.status, Some(1), "{words:?} {end}");
            assert!(!ran.text().contains("empty start"), "{}", ran.text());
        }
    }
}

#[test]
fn a_record_that_has_a_byte_is_lost_whatever_interrupts_it() {
    let log = [fragment(FIRST, b"1"), fragment(FULL, b"1")].concat();
    let dump = on(&log, &["dump", "log"]);
    assert_eq!(dump.text(), "S 0 8 4\nR 8 16 1\nE clean\n");
    assert_eq!(dump.status, Some(1));
    assert_eq!(on(&log, &["verify", "log"]).status, Some(1));
}

/// The empty start is one all the same; what is too long to be read is in doubt.
#[test]
fn a_record_that_is_too_long_after_one_is_in_doubt() {
    let mut log = [first_block(), fragment(FIRST, &[0; BLOCK - HEADER])].concat();
    for byte in 1..=128 {
        log.extend(fragment(MIDDLE, &[byte; BLOCK - HEADER]));
    }
    let dump = on(&log, &["dump", "log"]);
    let over = format!("S 32768 {} 7\nE clean\n", 130 * BLOCK);
    let says = format!("R 0 32761 32754\nS 32761 32768 8\n{over}");
    assert_eq!((dump.text(), dump.status), (&*says, Some(1)));
    let verified = on(&log, &["verify", "log"]);
    let lines = verified.lines();
    check_verdict(&lines[0]["log".len()..], &Found::in_log(&log));
    assert_eq!(lines[1], ONE);
    assert!(lines[2].starts_with("Gap of 4 227 072 bytes in blocks 2 to 130, after "));
    assert!(lines[3].ends_with(" (reason 7, over the limit)") && lines[4].is_empty());
    let advice = verified.text().replace('\n', " ");
    assert!(advice.contains("A record of more than 4 194 304 bytes may be sound"));
    assert!(
        !advice.contains("Nothing of the gap is handed out"),
        "{advice}"
    );
    let cells = format!("  block 1  R{}", " D".repeat(31));
    assert_eq!(on(&log, &["map", "log"]).lines()[1], cells);

    // By a limit that the user names, with a FULL.
    let [full, _] = old_journals();
    let dump = on(&full, &["dump", "--limit", "999", "log"]);
    let says = "S 0 32761 7\nS 32761 32768 8\nS 32768 33775 7\nE clean\n";
    assert_eq!((dump.text(), dump.status), (says, Some(1)));
}

/// A sound FIRST is there, and after it another one: that is no other kind of file.
#[test]
fn where_no_record_can_be_read_it_is_a_journal_all_the_same() {
    let (empty, begun) = (fragment(FIRST, b""), fragment(FIRST, b"1"));
    let torn = [&empty[..], &begun].concat();
    let lost = [&empty[..], &begun, &fragment(9, b"")].concat();
    for (log, says) in [
        (torn, "when the power went"),
        (lost, "nobody can tell how many records were written there"),
    ] {
        let verified = on(&log, &["verify", "log"]);
        let lines = verified.lines();
        check("log", &log, &lines);
        let heading = ", with no readable record before it or after it";
        assert!(lines[2].ends_with(heading), "{}", lines[2]);
        for ran in [verified, on(&log, &["mend", "log", "new"])] {
            let advice = ran.text().replace('\n', " ");
            assert_eq!(ran.status, Some(1));
            assert!(advice.contains(says), "{advice}");
            assert!(!advice.contains("is it a journal?"), "{advice}");
        }
    }
}

/// Of more gaps than are listed each has one inside and one after it: they close none, also where the
/// journal is read a second time to list them all.
#[test]
fn among_many_gaps_they_are_counted_and_close_none() {
    let (empty, orphan) = (fragment(FIRST, b""), fragment(LAST, b""));
    let (one, begun) = (fragment(FULL, b"1"), fragment(FIRST, b"1"));
    let log = [empty.clone(), one, orphan, empty, begun]
        .concat()
        .repeat(30);
    let found = Found::in_log(&log);
    assert_eq!((found.gaps().len(), found.empty_starts.len()), (30, 60));
    let verified = on(&log, &["verify", "--all", "log"]);
    assert_eq!(verified.status, Some(1));
    check("log", &log, &verified.lines());
}

/// As far as a reader can tell: here a record is lost with a block that was left out, and it shows as
/// an empty start (§13.6).
#[test]
fn a_block_that_is_left_out_may_show_as_one() {
    let log = written(&[
        &[b'A'; BLOCK - 2 * HEADER][..],
        &[b'B'; BLOCK - HEADER],
        b"C",
    ]);
    let log = [&log[..BLOCK], &log[2 * BLOCK..]].concat();
    let verified = on(&log, &["verify", "log"]);
    let lines = verified.done().lines();
    assert!(lines[0].contains(" It has 2 records; "), "{}", lines[0]);
    assert_eq!(lines[1], ONE);
    assert!(verified.text().ends_with(COMPARE));
    let help = run!("verify", "--help").done().text().replace('\n', " ");
    assert!(
        help.contains("look there: a block that was left out may show so."),
        "{help}"
    );
}

/// A line for all of them, however many there are.
#[test]
fn many_are_counted() {
    let pair = [fragment(FIRST, b""), fragment(FULL, b"")].concat();
    let mut block = [fragment(FULL, b"LW10-1 0.9"), pair.repeat(2_339)].concat();
    block.resize(BLOCK, 0);
    let log = block.repeat(5);
    let verified = on(&log, &["verify", "--all", "log"]);
    let mut lines = verified.done().lines();
    assert!(lines[1].starts_with("WARNING: 4 blocks are equal"));
    assert!(lines[2].starts_with(
        "11 695 empty starts, 81 865 bytes in all; the first is bytes 17 to 24 (7 bytes, block 1). "
    ));
    lines.remove(1);
    assert_eq!(check("log", &log, &lines).len(), 2);
    let mended = on(&log, &["mend", "log", "new"]);
    let starts = format!("{} {NONE}", verified.lines()[2]);
    assert_eq!(mended.done().lines()[2..4], [verified.lines()[1], &starts]);
}

/// What help says of ranges that are skipped is true of them too.
#[test]
fn help_says_that_they_are_not_in_doubt() {
    for (command, says) in [
        (
            "verify",
            "reads as records, or as empty starts of records, and nothing is torn",
        ),
        ("verify", "How many there are is said in a line of its own"),
        (
            "dump",
            "It is in doubt, unless the reason is 8, an empty start",
        ),
        ("dump", " 8 empty start: "),
        (
            "map",
            "every byte belongs to a record, or to an empty start of one, or is one of the zeros",
        ),
        (
            "map",
            "a skipped range that is no empty start has a byte here",
        ),
        (
            "mend",
            "Empty starts of records are named in a line of their own",
        ),
    ] {
        let help = run!(command, "--help");
        let words: Vec<&str> = help.done().text().split_whitespace().collect();
        assert!(words.join(" ").contains(says), "{command}: {says}");
    }
}
