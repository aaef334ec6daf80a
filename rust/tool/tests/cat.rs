//! `mellansko cat`: the bytes of one record.

#[macro_use]
mod common;

use common::damage::{dirty_logs, long_logs, mixed_log};
use common::expect::{grouped, written, Found};
use common::files::{in_advice, Folder};
use common::random::Random;
use common::terminal::{is_there, ran_on};
use common::tool;

#[test]
fn every_record_comes_out_byte_for_byte() {
    let folder = Folder::new("cat-bytes");
    let every_byte: Vec<u8> = (0..=255).collect();
    let records = [
        b"LW10-1 0.9137\r\n".to_vec(),
        Vec::new(),
        every_byte.repeat(500),
        b"\0".to_vec(),
        b"no line's end".to_vec(),
        every_byte.repeat(16_384),
    ];
    let log = written(&records);
    assert_eq!(records[5].len(), 4_194_304);
    let file = folder.file("log", &log);
    for (i, record) in records.iter().enumerate() {
        let number = (i + 1).to_string();
        let ran = run!("cat", &file, &number);
        assert!(ran.done().out == *record, "record {number}");
        let ran = feed!(&log; "cat", "-", &number);
        assert!(ran.done().out == *record, "record {number}");
    }
}

#[test]
fn a_record_that_is_not_there_is_not_made_up() {
    let folder = Folder::new("cat-none");
    let log = written(&[b"1", b"2"]);
    let file = folder.file("times", &log);
    for number in ["3", "4", "1000", "18446744073709551615"] {
        let named = grouped(number.parse().unwrap());
        run!("cat", &file, number).failed(2, &["times", &named, "2 records can be read"]);
    }
    run!("cat", &file, "99999999999999999999999").failed(2, &["times", "no record"]);
    let one = folder.file("times", &log[..8]);
    run!("cat", &one, "2").failed(2, &["times", "no record 2", "1 record can be read"]);
    // What is in doubt may have held it.
    let torn = folder.file("times", &log[..15]);
    run!("cat", &torn, "2").failed(2, &["no record 2", "1 record", "7 bytes are in doubt"]);
    let mut changed = log;
    changed[7] ^= 1;
    let changed = folder.file("times", &changed);
    run!("cat", &changed, "1").failed(2, &["no record 1", "0 records", "16 bytes are in doubt"]);
}

#[test]
fn a_number_is_digits_and_not_0() {
    let folder = Folder::new("cat-number");
    let file = folder.file("log", &written(&[b"1"]));
    run!("cat", &file, "0").failed(2, &["cat", "from 1"]);
    for number in ["", "x", "1x", "+1", "1.0", " 1", "0x1", "\u{0661}"] {
        run!("cat", &file, number).failed(2, &["cat", "number", number]);
    }
    run!("cat", &file, "-1").failed(2, &["cat", "-1"]);
}

#[test]
fn a_doubt_before_the_record_and_one_after_it_are_told_apart() {
    let folder = Folder::new("cat-doubt");
    // Block 2 is in doubt; after it stand records 2 and 3 of those that can be read.
    let mut log = written(&vec![vec![8; 32_761]; 3]);
    log.extend(written(&[b"third"]));
    log[32_768 + 9] ^= 1;
    let found = Found::in_log(&log);
    assert_eq!((found.records.len(), found.skips.len()), (3, 1));
    let file = folder.file("times", &log);
    let (before, after) = ("Before it 32 768 bytes are", "After it 32 768 bytes are");
    for (number, says, not) in [
        ("1", after, before),
        ("2", before, after),
        ("3", before, after),
    ] {
        let ran = run!("cat", &file, number);
        ran.complained(1, &["times", &format!("record {number} "), says]);
        assert!(!ran.err.contains(not), "{}", ran.err);
    }
    assert_eq!(run!("cat", &file, "1").out, vec![8; 32_761]);
    assert_eq!(run!("cat", &file, "3").out, b"third");
    // A torn tail is after all records.
    let torn = folder.file("times", &written(&["first", "second"])[..20]);
    let ran = run!("cat", &torn, "1");
    ran.complained(1, &["After it 8 bytes are in doubt", "a newer one"]);
    assert_eq!(ran.out, b"first");
}

#[test]
fn of_damaged_logs_every_record_comes_out_with_the_right_status() {
    let mut random = Random::new();
    println!("{random}");
    let folder = Folder::new("cat-damaged");
    let mut logs = long_logs(&mut random, 6);
    logs.extend(dirty_logs());
    logs.push(mixed_log());
    for log in logs {
        let file = folder.file("log", &log);
        let found = Found::in_log(&log);
        let doubt = found.with_room_for_records();
        let trailers = found.doubtful().len() > doubt.len();
        for (i, (range, bytes)) in found.records.iter().enumerate() {
            let ran = run!("cat", &file, (i + 1).to_string());
            assert_eq!(ran.status, Some(found.status()), "{range:?}: {}", ran.err);
            let before = doubt.iter().any(|doubt| doubt.start < range.start);
            let after = doubt.iter().any(|doubt| doubt.start > range.start);
            let says = ["Before it", "After it"].map(|words| ran.err.contains(words));
            assert_eq!(says, [before, after], "{range:?}: {}", ran.err);
            let says = ran.err.contains("The bytes that fill up ");
            assert_eq!(says, trailers, "{range:?}: {}", ran.err);
            assert!(ran.out == *bytes, "{range:?}");
        }
        let beyond = (found.records.len() + 1).to_string();
        assert_eq!(run!("cat", &file, beyond).status, Some(2));
    }
}

/// Records, and how a terminal is shown them.
const SHOWN: [(&[u8], &str); 10] = [
    (b"plain", "plain\n"),
    (b"ended\n", "ended\n"),
    (b"two\nlines\n\n", "two\nlines\n\n"),
    (b"", ""),
    (b"\n", "\n"),
    (
        "Jämtland, Östersund\t3".as_bytes(),
        "Jämtland, Östersund\t3\n",
    ),
    (
        b"\x1b[2J\x1b]0;x\x07\r\x08\x00\x7f",
        "\\x1b[2J\\x1b]0;x\\x07\\x0d\\x08\\x00\\x7f\n",
    ),
    (
        "\u{9b}2J\u{202e}abc\u{2028}".as_bytes(),
        "\\u{9b}2J\\u{202e}abc\\u{2028}\n",
    ),
    (b"J\xe4mtland \xff\x9b", "J\\xe4mtland \\xff\\x9b\n"),
    (b"\xc3", "\\xc3\n"),
];

#[test]
fn a_terminal_is_given_nothing_that_it_would_obey() {
    if !is_there() {
        return;
    }
    let folder = Folder::new("cat-terminal");
    let records: Vec<&[u8]> = SHOWN.iter().map(|(record, _)| *record).collect();
    let log = written(&records);
    let file = folder.file("log", &log);
    let torn = folder.file("torn", &[&log[..], b"torn"].concat());
    for (number, (record, shown)) in (1..).zip(SHOWN) {
        let number = number.to_string();
        let mut cat = tool();
        cat.arg("cat").arg(&file).arg(&number);
        let (status, text) = ran_on((80, 24), &mut cat, b"");
        assert_eq!(status, Some(0));
        // If it is shown otherwise, that is told, with how to have the record itself.
        let changed = shown.contains("\\");
        let said = text.strip_prefix(shown).expect(shown);
        assert_eq!(said.starts_with("mellansko: bytes that"), changed, "{said}");
        assert_eq!(said.is_empty(), !changed, "{said}");
        let advice = format!("cat {} {number} > record-{number}\n", in_advice(&file));
        assert!(!changed || said.ends_with(&advice), "{said}");
        // To a pipe it is the record itself.
        assert_eq!(run!("cat", &file, &number).done().out, record);

        // A warning begins a line of its own.
        let mut cat = tool();
        cat.arg("cat").arg(&torn).arg(&number);
        let (status, text) = ran_on((80, 24), &mut cat, b"");
        assert_eq!(status, Some(1));
        let said = text.strip_prefix(shown).expect(shown);
        assert!(said.starts_with("mellansko: "), "{said}");
        let words: Vec<&str> = said.split_whitespace().collect();
        assert!(words.join(" ").contains("this is record "), "{said}");
        let tricks = |c: char| c.is_control() && c != '\n' && c != '\t';
        assert!(!text.contains(tricks), "{text:?}");
    }
}
