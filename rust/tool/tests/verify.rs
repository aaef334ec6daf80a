//! `mellansko verify`: what damage journals show.

#[macro_use]
mod common;

use common::damage::{dirty_logs, long_logs, mixed_log, small_logs};
use common::expect::{count, example, grouped, numbers, written, Found};
use common::files::Folder;
use common::random::Random;
use common::report::check;
use common::{fed, ran, tool};
use reference::log::{fragment, FIRST, MIDDLE};
use std::collections::BTreeSet;
use std::process::Command;

#[test]
fn where_no_damage_is_found_the_records_and_the_last_one_are_named() {
    let folder = Folder::new("verify-sound");
    for records in [
        vec![vec![7; 5]],
        vec![Vec::new(); 3],
        vec![vec![1; 40_000]],
        vec![vec![5; 10]; 30_000],
    ] {
        let log = written(&records);
        let ran = run!("verify", folder.file("log", &log));
        let first = ran.done().lines()[0];
        assert!(first.contains(": no damage found in its "), "{first}");
        let found = Found::in_log(&log);
        let (last, _) = &found.records[records.len() - 1];
        for figure in [
            count(records.len(), "record"),
            count(log.len(), "byte"),
            count(log.len().div_ceil(32_768), "block"),
            format!("bytes {} to {}", grouped(last.start), grouped(last.end)),
        ] {
            assert!(first.contains(&figure), "{figure:?} is not in: {first}");
        }
        // And then, that they are to be compared.
        assert!(ran
            .text()
            .contains("\nCompare the records with what you expect: "));
    }
}

#[test]
fn the_example_is_cut_as_the_format_page_says() {
    let log = example();
    let sound = fed(tool().args(["verify", "-"]), &log);
    assert_eq!(
        sound.done().lines()[0],
        "standard input: no damage found in its 106 311 bytes, 4 blocks. \
         It has 3 records; the last is record 3, bytes 98 304 to 106 311."
    );
    // The third record, from 98 304 on, is cut off by a byte.
    let torn = fed(tool().args(["verify", "-"]), &log[..106_310]);
    assert_eq!(torn.status, Some(1));
    let lines = torn.lines();
    assert_eq!(
        lines[0],
        "standard input: IN DOUBT: 8006 of its 106 310 bytes, in block 4 of 4; \
         its end is torn from byte 98 304 on. \
         It has 2 readable records; the last is record 2, bytes 1007 to 98 298."
    );
    assert_eq!(
        lines[1],
        "Gap of 8006 bytes in block 4, after the last readable record, number 2, which ends at byte 98 298"
    );
    assert!(lines[2].starts_with("  - bytes 98 304 to 106 310 (8006 bytes, block 4): torn"));

    // Inside the trailer, of zeros, nothing shows that a record is gone: the number and the place
    // alone tell.
    let short = fed(tool().args(["verify", "-"]), &log[..98_300]);
    assert_eq!(
        short.done().lines()[0],
        "standard input: no damage found in its 98 300 bytes, 3 blocks. \
         It has 2 records; the last is record 2, bytes 1007 to 98 298."
    );
}

#[test]
fn the_example_with_a_byte_changed_is_as_the_format_page_says() {
    let mut log = example();
    log[40_000] ^= 1;
    let changed = fed(tool().args(["verify", "-"]), &log);
    assert_eq!(changed.status, Some(1));
    let lines = changed.lines();
    assert_eq!(
        lines[0],
        "standard input: IN DOUBT: 97 291 of its 106 311 bytes, in blocks 1 to 3 of 4. \
         It has 2 readable records; the last is record 2, bytes 98 304 to 106 311."
    );
    assert_eq!(
        lines[1],
        "Gap of 97 291 bytes in blocks 1 to 3, between record 1, which ends at byte 1007, \
         and record 2, which starts at byte 98 304"
    );
    for (line, range, reason) in [
        (
            lines[2],
            "bytes 1007 to 32 768 (31 761 bytes, block 1): ",
            "reason 4, interrupted",
        ),
        (
            lines[3],
            "bytes 32 768 to 65 536 (32 768 bytes, block 2): ",
            "reason 3, checksum",
        ),
        (
            lines[4],
            "bytes 65 536 to 98 298 (32 762 bytes, block 3): ",
            "reason 5, orphan",
        ),
    ] {
        assert!(line.contains(range) && line.contains(reason), "{line}");
    }
}

#[test]
fn damage_and_a_torn_tail_are_both_told() {
    let log = mixed_log();
    let found = Found::in_log(&log);
    assert!(!found.skips.is_empty() && found.torn.is_some());
    let ran = fed(tool().args(["verify", "-"]), &log);
    assert_eq!((ran.status, ran.err.as_str()), (Some(1), ""));
    check("standard input", &log, &ran.lines());
}

#[test]
fn a_few_blocks_apart_are_named_and_many_counted() {
    let mut log = written(&vec![vec![9; 32_761]; 12]);
    for block in [1, 4, 5, 6, 8] {
        log[block * 32_768 + 100] ^= 1;
    }
    let ran = fed(tool().args(["verify", "-"]), &log);
    let first = ran.lines()[0];
    assert!(
        first.contains("in blocks 2 and 5 to 7 and 9 of 12"),
        "{first}"
    );
    log[10 * 32_768 + 100] ^= 1;
    let ran = fed(tool().args(["verify", "-"]), &log);
    let first = ran.lines()[0];
    assert!(first.contains("in 6 of its 12 blocks"), "{first}");
}

/// All at once, so that it is quick.
#[test]
fn of_many_damaged_logs_each_doubt_is_listed_and_nothing_else() {
    let mut random = Random::new();
    println!("{random}");
    let mut logs = small_logs(&mut random);
    logs.extend(long_logs(&mut random, 40));
    logs.extend(dirty_logs());
    check_reasons(&logs);

    let folder = Folder::new("verify-many");
    let names: Vec<String> = (0..logs.len()).map(|i| format!("log-{i}")).collect();
    for (name, log) in names.iter().zip(&logs) {
        folder.file(name, log);
    }
    let mut command = tool();
    command.args(["verify", "--all"]).args(&names);
    let ran = ran(command.current_dir(&*folder));
    assert_eq!((ran.status, ran.err.as_str()), (Some(1), ""));
    let lines = ran.lines();
    let sound = logs.iter().filter(|log| Found::in_log(log).is_whole());
    let sound = sound.count();
    assert!(lines[0].starts_with("IN DOUBT: "), "{}", lines[0]);
    let expected = [logs.len(), logs.len() - sound, 0, sound];
    assert_eq!(numbers(lines[0]), expected, "{}", lines[0]);

    let mut rest = &lines[1..];
    for (name, log) in names.iter().zip(&logs) {
        rest = check(name, log, rest);
    }
    // It is long, so the answer comes again, and only advice is left.
    assert_eq!(rest[..2], ["", lines[0]]);
    assert!(rest.len() < 20, "{rest:?}");
    let advice = rest[2..].join(" ");
    assert!(
        advice.contains("keep a journal in doubt as it is"),
        "{advice}"
    );
    assert!(advice.contains("compare the records with what you expect"));
}

/// That the logs have every kind of doubt in them, and empty starts with doubt and without it.
fn check_reasons(logs: &[Vec<u8>]) {
    let found: Vec<Found> = logs.iter().map(|log| Found::in_log(log)).collect();
    let skips = found.iter().flat_map(|found| &found.skips);
    let reasons: BTreeSet<u8> = skips.map(|&(_, reason)| reason).collect();
    assert_eq!(reasons, BTreeSet::from([1, 2, 3, 4, 5, 6, 9]));
    assert!(found.iter().any(|found| found.torn.is_some()));
    for whole in [true, false] {
        let has = |found: &Found| !found.empty_starts.is_empty() && found.is_whole() == whole;
        assert!(found.iter().any(has), "{whole}");
    }
}

#[test]
fn the_status_alone_tells_a_log_in_doubt_from_others() {
    let mut random = Random::new();
    println!("{random}");
    let folder = Folder::new("verify-status");
    let (mut sound, mut doubtful) = (Vec::new(), Vec::new());
    for (i, log) in small_logs(&mut random).into_iter().enumerate() {
        let file = folder.file(format!("{i}"), &log);
        let ran = run!("verify", &file);
        let status = Found::in_log(&log).status();
        assert_eq!(ran.status, Some(status), "{log:x?}: {}", ran.text());
        match status {
            0 => sound.push(file),
            _ => doubtful.push(file),
        }
    }
    let all_sound = ran(tool().arg("verify").args(&sound));
    let expected = format!(
        "No damage found in any of {} journals.",
        grouped(sound.len())
    );
    assert_eq!(all_sound.done().lines()[0], expected);
    // One among others is enough, wherever it stands.
    for file in doubtful.iter().step_by(20) {
        let mut files = sound.clone();
        files.insert(random.below(sound.len() + 1), file.clone());
        assert_eq!(ran(tool().arg("verify").args(&files)).status, Some(1));
    }
}

/// LevelDB writes such, and they are sound; but no limit that the user named is to be blamed.
#[test]
fn a_record_that_is_too_long_is_named_with_the_figure() {
    let first = fragment(FIRST, &[1; 32_761]);
    let long = [first, fragment(MIDDLE, &[1; 32_761]).repeat(128)].concat();
    let log = [written(&[vec![2; 32_761]]), long].concat();
    let ran = fed(tool().args(["verify", "-"]), &log);
    let lines = ran.lines();
    assert!(lines[0].contains("IN DOUBT"), "{}", lines[0]);
    let why =
        "a record longer than 4 194 304 bytes, the most that one may have (reason 7, over the limit)";
    assert!(ran.text().contains(why), "{}", ran.text());
    let advice = lines.join(" ");
    assert!(advice.contains("A record of more than 4 194 304 bytes may be sound"));
}

/// With both on one pipe, as on a terminal.
#[test]
fn the_first_line_answers_before_anything_is_complained_of() {
    let folder = Folder::new("verify-first");
    folder.file("sound", &written(&[b"1"]));
    let mut command = Command::new("sh");
    command.args(["-c", "exec \"$0\" verify missing sound 2>&1"]);
    command.arg(env!("CARGO_BIN_EXE_mellansko"));
    let ran = ran(command.current_dir(&*folder));
    let lines = ran.lines();
    assert!(lines[0].starts_with("NOT ALL READ: "), "{lines:?}");
    assert!(
        lines[1].contains("missing") && lines[2].starts_with("sound: no damage found"),
        "{lines:?}"
    );
}

#[test]
fn what_is_not_read_is_neither_sound_nor_forgotten() {
    let folder = Folder::new("verify-unread");
    let sound = folder.file("sound", &written(&[b"1"]));
    let torn = folder.file("torn", b"torn");
    let missing = folder.join("missing");
    for (files, begins, figures) in [
        (vec![&sound, &missing], "NOT ALL READ: ", [2, 0, 1, 1]),
        (vec![&missing, &torn], "IN DOUBT: ", [2, 1, 1, 0]),
        (
            vec![&missing, &torn, &sound, &sound],
            "IN DOUBT: ",
            [4, 1, 1, 2],
        ),
    ] {
        let ran = ran(tool().arg("verify").args(files));
        ran.complained(2, &["missing", "no such file"]);
        let first = ran.lines()[0];
        assert!(first.starts_with(begins), "{first}");
        assert_eq!(numbers(first), figures, "{first}");
    }
    run!("verify", &missing).failed(2, &["missing", "no such file"]);
}
