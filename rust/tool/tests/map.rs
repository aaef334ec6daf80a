//! `mellansko map`: the picture of a journal.

#[macro_use]
mod common;

use common::damage::{dirty_logs, long_logs, mixed_log};
use common::expect::{count, grouped, long_log, numbers, without_codes, written, Found};
use common::files::Folder;
use common::random::Random;
use common::report::check_verdict;
use common::terminal::{is_there, ran_on};
use common::{fed, ran, tool};
use reference::log::BLOCK;
use std::ops::Range;

/// The rows that a log is drawn in, with so many blocks a cell and so many cells a row: the number of
/// a row's first block, and its cells, each a letter and a joint.
fn rows_of(found: &Found, blocks: usize, row: usize) -> Vec<(usize, String)> {
    let cell_bytes = blocks * BLOCK;
    let cells = found.length.div_ceil(cell_bytes);
    let in_cell = |cell: usize, start: usize, end: usize| {
        start < (cell + 1) * cell_bytes && end > cell * cell_bytes
    };
    let mut rows = Vec::new();
    for cell in 0..cells {
        let skipped = |(range, _): &(Range<usize>, u8)| in_cell(cell, range.start, range.end);
        let doubt = found.skips.iter().any(skipped);
        let torn = found
            .torn
            .is_some_and(|start| in_cell(cell, start, found.length));
        let letter = match (doubt, torn) {
            (false, false) => 'R',
            (true, false) => 'D',
            (false, true) => 'T',
            (true, true) => 'X',
        };
        let end = (cell + 1) * cell_bytes;
        let runs_on = |(range, _): &(Range<usize>, Vec<u8>)| range.start < end && range.end > end;
        let joint = if found.records.iter().any(runs_on) {
            '-'
        } else {
            ' '
        };
        if cell % row == 0 {
            rows.push((cell * blocks + 1, String::new()));
        }
        rows.last_mut().expect("a row").1.extend([letter, joint]);
    }
    for row in &mut rows {
        row.1.truncate(row.1.trim_end().len());
    }
    rows
}

/// The rows on a screen of 80 columns, or where there is none.
fn rows(found: &Found, blocks: usize) -> Vec<(usize, String)> {
    rows_of(found, blocks, 32)
}

/// Holds a picture to the reference: the answer, the rows, an empty line, and the legend.
fn check(lines: &[&str], found: &Found, blocks: usize) {
    let (_, verdict) = lines[0].split_once(": ").expect("a name");
    check_verdict(&format!(": {verdict}"), found);
    let after = check_rows(&lines[1..], &rows(found, blocks));
    let [empty, letters, joint, cell] = after else {
        panic!("{lines:?}");
    };
    assert_eq!(*empty, "");
    for meaning in ["R readable", "D in doubt", "T torn", "X "] {
        assert!(letters.contains(meaning), "{letters}");
    }
    assert!(joint.starts_with("- "), "{joint}");
    assert!(cell.contains(&count(blocks * BLOCK, "byte")), "{cell}");
    for line in &lines[1..] {
        assert!(line.len() <= 80, "{line}");
    }
}

/// Holds rows to those that are expected, and gives the lines after them.
fn check_rows<'a>(lines: &'a [&'a str], rows: &[(usize, String)]) -> &'a [&'a str] {
    let (drawn, after) = lines.split_at(rows.len());
    let column = |line: &str| line.rfind("  ").expect("two columns");
    for (line, (block, cells)) in drawn.iter().zip(rows) {
        let label = format!("block {}", grouped(*block));
        let (place, row) = line.split_at(column(line));
        assert_eq!((place.trim_start(), row.trim_start()), (&*label, &**cells));
        // All rows begin in one column.
        assert_eq!(column(line), column(drawn[0]), "{line}");
    }
    after
}

#[test]
fn each_kind_of_block_has_its_letter_and_a_record_its_joint() {
    let log = mixed_log();
    let found = Found::in_log(&log);
    // Whole, changed, and a record from block 3 into block 4, in which the tail is torn.
    assert_eq!(rows(&found, 1), [(1, "R D R-T".into())]);
    let ran = fed(tool().args(["map", "-"]), &log);
    assert_eq!(ran.status, Some(1));
    check(&ran.lines(), &found, 1);

    let mut both = log;
    both.truncate(BLOCK + 2_000);
    both[BLOCK + 5] = 0xff;
    both.extend(vec![0; BLOCK - 2_000]);
    both.extend([1, 2, 3]);
    both[100] ^= 1;
    check_log(&both, 1);
    // A skipped range and the torn tail in one block.
    let mut both = written(&[&[1; 10][..]]);
    both.extend(reference::log::fragment(4, b"orphan"));
    both.extend([9; 3]);
    let found = Found::in_log(&both);
    assert_eq!(rows(&found, 1), [(1, "X".into())]);
    check_log(&both, 1);
}

fn check_log(log: &[u8], blocks: usize) {
    let found = Found::in_log(log);
    let ran = fed(
        tool().args(["map", "--blocks", &blocks.to_string(), "-"]),
        log,
    );
    assert_eq!((ran.status, ran.err.as_str()), (Some(found.status()), ""));
    check(&ran.lines(), &found, blocks);
}

#[test]
fn damaged_logs_are_drawn_as_the_reference_reads_them() {
    let mut random = Random::new();
    println!("{random}");
    for log in long_logs(&mut random, 60).into_iter().chain(dirty_logs()) {
        if !log.is_empty() {
            check_log(&log, 1);
        }
    }
}

#[test]
fn a_joint_stands_where_a_record_runs_over_a_block_and_nowhere_else() {
    for lengths in [
        // Just to a block's end, and by one byte over it.
        vec![32_761, 10, 32_744],
        vec![32_762, 10],
        // An empty first fragment at a block's end; and a trailer instead.
        vec![32_754, 1, 5],
        vec![32_755, 1, 5],
        vec![32_754, 0, 5],
        vec![100_000, 3],
    ] {
        let records: Vec<Vec<u8>> = lengths.iter().map(|&length| vec![5; length]).collect();
        check_log(&written(&records), 1);
    }
    let drawn = |log: &[u8]| rows(&Found::in_log(log), 1)[0].1.clone();
    assert_eq!(drawn(&written(&[vec![5; 32_761], vec![5; 3]])), "R R");
    assert_eq!(drawn(&written(&[vec![5; 32_754], vec![5; 1]])), "R-R");
    assert_eq!(drawn(&written(&[vec![5; 32_755], vec![5; 1]])), "R R");
}

#[test]
fn several_blocks_are_one_cell_and_a_row_has_32() {
    let mut random = Random::new();
    println!("{random}");
    // Records of two to three blocks, in 70 blocks, with some in doubt.
    let mut log = written(&vec![vec![3; 80_000]; 28]);
    for _ in 0..4 {
        let place = random.below(log.len());
        log[place] ^= 1;
    }
    assert_eq!(rows(&Found::in_log(&log), 1).len(), 3);
    for blocks in [1, 2, 3, 7, 32, 68, 69] {
        check_log(&log, blocks);
    }
    // More than there are is all.
    let all = Found::in_log(&log).blocks();
    for blocks in ["100000", "99999999999999999999999"] {
        let ran = feed!(&log; "map", "--blocks", blocks, "-");
        check(&ran.lines(), &Found::in_log(&log), all);
    }
}

#[test]
fn a_log_of_512_blocks_fits_16_rows() {
    let mut log = long_log();
    log[5_000_000] ^= 1;
    log[16_777_215] ^= 1;
    let folder = Folder::new("map-longest");
    let file = folder.file("log", &log);
    let ran = run!("map", &file);
    let found = Found::in_log(&log);
    assert_eq!(ran.status, Some(1));
    check(&ran.lines(), &found, 1);
    assert_eq!(ran.lines().len(), 1 + 16 + 4);
}

/// What a map of a log looks like so many columns wide: by COLUMNS for a pipe, by the terminal, by
/// COLUMNS for a terminal that tells no width, and by a terminal that tells one though COLUMNS says
/// another.
fn drawn_at(columns: u16, log: &[u8]) -> Vec<String> {
    let map = |wished: Option<u16>| {
        let mut command = tool();
        command.args(["map", "--color", "never", "-"]);
        command.envs(wished.map(|columns| ("COLUMNS", columns.to_string())));
        command
    };
    let mut drawn = vec![fed(&mut map(Some(columns)), log).text().to_string()];
    if is_there() {
        drawn.push(ran_on((columns, 24), &mut map(None), log).1);
        drawn.push(ran_on((0, 0), &mut map(Some(columns)), log).1);
        drawn.push(ran_on((columns, 24), &mut map(Some(79)), log).1);
    }
    drawn
}

/// Sixty columns have room for 24 cells a row, eighty for 32, and so on; the legend is there too.
#[test]
fn the_picture_is_as_wide_as_the_terminal() {
    let mut log = written(&vec![vec![3; 80_000]; 60]);
    log[2_500_000] ^= 1;
    log.truncate(log.len() - 1);
    let found = Found::in_log(&log);
    assert!(found.blocks() > 100 && found.torn.is_some());
    for (columns, row) in [(60, 24), (80, 32), (132, 56), (400, 64), (26, 7), (8, 1)] {
        for text in drawn_at(columns, &log) {
            let lines: Vec<&str> = text.lines().collect();
            let first = lines.iter().position(|line| line.contains("block 1  "));
            let blocks = found.blocks().div_ceil(16 * row);
            let rows = rows_of(&found, blocks, row);
            let after = check_rows(&lines[first.expect("a row")..], &rows);
            for said in ["R readable", "D in doubt", "T torn tail"] {
                assert!(after.join(" ").contains(said), "{after:?}");
            }
        }
    }
}

#[test]
fn every_line_of_a_picture_fits_the_terminal() {
    if !is_there() {
        return;
    }
    for log in [mixed_log(), long_log()] {
        for (columns, words) in [
            (60, &["map", "-"][..]),
            (80, &["map", "-"]),
            (60, &["map", "--color=always", "-"]),
            (40, &["map", "-"]),
        ] {
            let (_, text) = ran_on((columns, 24), tool().args(words), &log);
            for line in without_codes(&text).lines() {
                assert!(line.chars().count() <= usize::from(columns), "{line}");
            }
        }
    }
}

#[test]
fn an_empty_journal_has_no_cells() {
    let ran = run!("map", "-");
    let lines = ran.done().lines();
    assert_eq!(lines.len(), 1);
    assert!(lines[0].contains("no damage found") && lines[0].contains("empty"));
    assert_eq!(numbers(lines[0]), []);
}

#[test]
fn colours_change_no_letter_and_come_only_if_asked_for() {
    let log = mixed_log();
    let plain = fed(tool().args(["map", "-"]), &log);
    assert!(!plain.text().contains('\x1b'));
    for words in [&["--color", "auto"][..], &["--color=never"]] {
        let ran = fed(tool().arg("map").args(words).arg("-"), &log);
        assert_eq!(ran.text(), plain.text());
    }
    for set in ["", "1"] {
        // What is asked for in so many words goes before NO_COLOR.
        let mut command = tool();
        command
            .args(["map", "--color", "always", "-"])
            .env("NO_COLOR", set);
        let ran = fed(&mut command, &log);
        assert_eq!(ran.status, plain.status);
        assert_eq!(without_codes(ran.text()), plain.text());
        // A colour of its own for each letter, and none left on.
        for letter in ["R", "D", "T", "X"] {
            assert!(
                ran.text().contains(&format!("m{letter}\x1b[0m")),
                "{letter}"
            );
        }
    }
    let ran = ran(tool().args(["map", "--color", "sometimes", "-"]));
    ran.failed(2, &["map", "--color", "always, never or auto"]);
}
