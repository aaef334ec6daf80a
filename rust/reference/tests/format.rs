//! The figures and examples of docs/FORMAT.md, held to this implementation: each is worked out here
//! and must stand on the page as it comes out.

#[path = "format/dirty_trailer.rs"]
mod dirty_trailer;
#[path = "format/empty_start.rs"]
mod empty_start;
#[path = "format/how_stored.rs"]
mod how_stored;
#[path = "format/two_figures.rs"]
mod two_figures;

use reference::feed::{self, Told};
use reference::log::{append, next, Appended, Next, Stored, Tail, BLOCK};
use reference::mend::{mend, Mended};
use reference::{crc32c, crc32c_extend, mask, CRC32C_TABLE};

const PAGE: &str = include_str!("../../../docs/FORMAT.md");

/// The page's text from one number up to another, in one line.
fn part(from: &str, to: &str) -> String {
    let start = PAGE.find(&format!("**{from}**")).expect(from);
    let rest = &PAGE[start..];
    let end = rest.find(to).expect(to);
    rest[..end].split_whitespace().collect::<Vec<_>>().join(" ")
}

fn says(text: &str, wanted: &str) {
    assert!(
        text.contains(wanted),
        "the page does not say: {wanted}\n{text}"
    );
}

/// A number as the page writes it.
fn grouped(number: usize) -> String {
    let digits = number.to_string();
    let (head, tail) = digits.split_at((digits.len() - 1) % 3 + 1);
    let threes = tail.as_bytes().chunks(3).map(|three| {
        let three = std::str::from_utf8(three).expect("digits");
        format!(",{three}")
    });
    head.to_string() + &threes.collect::<String>()
}

/// The answers of a log, as the page tells them.
fn told(log: &[u8], limit: usize) -> Vec<String> {
    reading(log, limit).into_iter().map(line).collect()
}

/// The same, as the answers that they are.
fn reading(log: &[u8], limit: usize) -> Vec<Next> {
    let mut buffer = vec![0; limit];
    let mut place = 0;
    let mut answers = Vec::new();
    loop {
        let answer = next(log, place, limit, &mut buffer);
        place = answer.place_after(log);
        answers.push(answer);
        if matches!(answer, Next::End(_) | Next::Refused { .. }) {
            return answers;
        }
    }
}

/// An answer, as the page tells it.
fn line(answer: Next) -> String {
    match answer {
        Next::Record {
            start, end, stored, ..
        } => {
            let stored = match stored {
                Stored::Whole(place) => format!("whole from {}", grouped(place)),
                Stored::Gathered => "gathered".to_string(),
            };
            format!("record {} to {}, {stored}", grouped(start), grouped(end))
        }
        Next::Skip { start, end, reason } => format!(
            "skipped {} to {}, reason {reason}",
            grouped(start),
            grouped(end)
        ),
        Next::End(Tail::Clean) => "end, clean".to_string(),
        Next::End(Tail::Torn(start)) => format!("end, torn at {}", grouped(start)),
        Next::Refused { number, .. } => panic!("refused with {number}"),
    }
}

/// The log of some appends, and the bytes that each adds.
fn written(records: &[&[u8]]) -> (Vec<u8>, Vec<usize>) {
    let mut log = vec![0; 200_000];
    let mut mark = 0;
    let mut added = Vec::new();
    for record in records {
        let Appended::Mark(new) = append(&mut log, mark, record) else {
            panic!("refused");
        };
        added.push(new - mark);
        mark = new;
    }
    log.truncate(mark);
    (log, added)
}

#[test]
fn checksums() {
    let text = part("§2.4", "## 3.");
    says(
        &text,
        &format!("`123456789` it is 0x{:08X}", crc32c(b"123456789")),
    );
    says(&text, &format!("Of no bytes it is {}", crc32c(b"")));
    says(
        &text,
        &format!(
            "form of 0 is 0x{:08X}; that of 1 is 0x{:08X}.",
            mask(0),
            mask(1)
        ),
    );
    // The one bit of 128 leaves with the last shift, so only what is xor-ed then is left.
    let xored = format!("0x{:08X}", CRC32C_TABLE[128]);
    says(&text, &format!("by one and xor-ed with {xored}, otherwise"));
    says(&text, &format!("number 128 is {xored}."));
}

#[test]
fn checksums_carried_on() {
    let text = part("§2.8", "**§2.9**");
    let none = crc32c(b"");
    says(
        &text,
        &format!("The checksum of no bytes is {none}, and carrying on from {none} over A gives"),
    );
    let first = crc32c(b"1234");
    let whole = crc32c_extend(first, b"56789");
    assert_eq!(whole, crc32c(b"123456789"));
    says(
        &text,
        &format!(
            "the checksum of `1234` is 0x{first:08X}, and carrying on from that over `56789` gives \
             0x{whole:08X}, as in §2.4."
        ),
    );
}

#[test]
fn checksums_of_the_types() {
    let text = part("§2.9", "## 3.");
    let [a, b, c, d] = [1, 2, 3, 4].map(|kind| format!("0x{:08X}", crc32c(&[kind])));
    says(
        &text,
        &format!("the checksums of the single bytes 01, 02, 03 and 04 are {a}, {b}, {c} and {d}."),
    );
}

const RECORDS: [&[u8]; 2] = [b"LW10-1 0.9137", b"LW11 0.8412"];

#[test]
fn two_records_written() {
    let (log, added) = written(&RECORDS);
    let text = part("§9.1", "**§9.2**");
    let sum = crc32c(&[&[1], RECORDS[0]].concat());
    says(
        &text,
        &format!("is 0x{sum:08X}, and masked 0x{:08X}.", mask(sum)),
    );
    let mut place = 0;
    for size in added {
        let bytes = log[place..place + size].iter();
        let bytes: Vec<String> = bytes.map(|byte| format!("{byte:02x}")).collect();
        says(&text, &format!("{place} {}", bytes.join(" ")));
        place += size;
    }
    says(&text, &format!("the log is these {place} bytes"));
}

#[test]
fn two_records_read() {
    let (mut log, _) = written(&RECORDS);
    let text = part("§9.1", "**§9.2**");
    let answers = told(&log, 100);
    // Here the page says the lengths as well.
    let long = |i: usize| {
        let length = RECORDS[i].len();
        answers[i].replace(", whole", &format!(", {length} bytes, whole"))
    };
    let all = format!("{}; {}; {}", long(0), long(1), answers[2]);
    says(&text, &format!("limit 100 it answers: {all}. As the"));
    let cut = told(&log[..37], 100);
    assert_eq!((&cut[0], cut.len()), (&answers[0], 2));
    let torn = &cut[1];
    says(
        &text,
        &format!("Cut to 37 bytes: the first record; {torn}."),
    );
    let low = told(&log, 12).join("; ");
    says(&text, &format!("With limit 12: {low}."));
    log[10] ^= 1;
    let changed = told(&log, 100).join("; ");
    says(&text, &format!("at place 10 changed: {changed}."));
}

#[test]
fn ten_words() {
    let (log, _) = written(&RECORDS);
    let answer = next(&log, 0, 100, &mut [0; 100]);
    let words = how_stored::words(answer).map(|word| word.to_string());
    says(
        &part("§9.1", "**§9.2**"),
        &format!("the first answer is {}.", words.join(", ")),
    );
}

/// The log of the picture of §1, and the bytes that each append adds.
fn picture() -> (Vec<u8>, Vec<usize>) {
    let records = [1_000, 97_270, 8_000].map(|length| vec![7; length]);
    written(&records.each_ref().map(Vec::as_slice))
}

#[test]
fn the_picture() {
    let (mut log, added) = picture();
    let text = part("§9.2", "**§9.3**");
    let [a, b, c] = [0, 1, 2].map(|i| grouped(added[i]));
    says(
        &text,
        &format!(
            "The appends add {a}, {b} and {c} bytes, and the log has {}.",
            grouped(log.len())
        ),
    );
    let whole = told(&log, 262_144);
    says(&text, &format!("limit 262,144: {}.", whole.join("; ")));
    for (length, words) in [(106_310, ""), (98_300, ", which is in the trailer")] {
        let cut = told(&log[..length], 262_144);
        assert_eq!(cut[..2], whole[..2]);
        let (length, end) = (grouped(length), &cut[2]);
        says(
            &text,
            &format!("Cut to {length} bytes{words}: the first two records; {end}."),
        );
    }
    log[40_000] ^= 1;
    let changed = told(&log, 262_144);
    assert_eq!((&changed[0], &changed[4]), (&whole[0], &whole[2]));
    says(
        &text,
        &format!(
            "at 40,000 changed: the first record; {}; the third record; {}.",
            changed[1..4].join("; "),
            changed[5]
        ),
    );
}

#[test]
fn the_longest_record() {
    let text = part("§9.5", "## 10.");
    let mut log = vec![0; 5_000_000];
    let record = vec![7; 4_194_305];
    let Appended::Mark(mark) = append(&mut log, 0, &record[1..]) else {
        panic!("refused");
    };
    assert_eq!(mark, 4_195_207);
    let given = "In a log of 5,000,000 bytes a record of 4,194,304 bytes at mark 0";
    let new = grouped(mark);
    says(
        &text,
        &format!("{given} is accepted, and the new mark is {new}."),
    );
    let Appended::Refused { number, given } = append(&mut log, mark, &record) else {
        panic!("accepted");
    };
    assert_eq!((number, given), (3, 4_195_207));
    let longer = format!("One of 4,194,305 bytes at mark {new}");
    says(
        &text,
        &format!("{longer} is refused with number {number}, and gives back {new}."),
    );
}

/// The rows of the first table after a number, without its head.
fn rows(text: &str) -> Vec<Vec<String>> {
    let start = PAGE.find(&format!("**{text}**")).expect(text);
    table(&mut PAGE[start..].lines())
}

/// The rows of the next table. The lines go on after it.
fn table<'a>(lines: &mut impl Iterator<Item = &'a str>) -> Vec<Vec<String>> {
    let lines = lines.skip_while(|line| !line.starts_with('|'));
    let lines = lines.take_while(|line| line.starts_with('|')).skip(2);
    lines
        .map(|line| {
            let cells = line.trim_matches('|').split('|');
            cells.map(|cell| cell.trim().to_string()).collect()
        })
        .collect()
}

/// The bytes that a cell shows, in groups or not.
fn bytes(hex: &str) -> Vec<u8> {
    let bytes = hex.split(' ').filter(|part| *part != "·");
    bytes
        .map(|byte| u8::from_str_radix(byte, 16).expect("a byte"))
        .collect()
}

#[test]
fn sizes() {
    let number = |text: &str| text.replace(',', "").parse::<usize>().expect("a number");
    let rows = rows("§9.3");
    assert_eq!(rows.len(), 5);
    for row in rows {
        let mark = number(&row[0]);
        let length = match row[1].split_once(' ') {
            Some((count, _)) => number(count),
            None => 0,
        };
        let answer = append(&mut vec![0; 200_000], mark, &vec![7; length]);
        assert_eq!(answer, Appended::Mark(mark + number(&row[2])), "{row:?}");
    }
}

#[test]
fn small_logs() {
    let rows = rows("§9.4");
    assert_eq!(rows.len(), 5);
    for row in rows {
        let log = match row[0].as_str() {
            "no bytes" => Vec::new(),
            "any six bytes" => vec![0x5a; 6],
            "seven zeros" => vec![0; 7],
            hex => bytes(hex),
        };
        assert_eq!(told(&log, 100).join("; "), row[1], "{row:?}");
    }
}

/// The moments of §11.13, for pieces of several lengths: each answer comes with the piece that has
/// the byte, and with single bytes right at the figure.
#[test]
fn fed_in_pieces() {
    let text = part("§11.13", "**§11.14**");
    says(&text, "at limit 24,576");
    let (log, _) = picture();
    let rows = rows("§11.13");
    for length in [1, 1_007, 5_000, 32_768, 200_000] {
        let told = fed(&log, 24_576, length);
        assert_eq!(told.len(), rows.len());
        for ((answer, came), row) in told.iter().zip(&rows) {
            assert_eq!(answer, &row[0]);
            let (moment, announced) = match row[1].split_once(", and ") {
                Some((moment, words)) => (moment, Some(words)),
                None => (row[1].as_str(), None),
            };
            let moment = moment.replace(',', "").parse::<usize>().expect("a number");
            // A piece is taken in parts where a block ends.
            assert!((moment..moment + length).contains(came), "{row:?}, {came}");
            assert!(length > 1 || *came == moment, "{row:?}, {came}");
            let end = (answer == "end, clean").then_some("the end is announced");
            assert_eq!(announced, end);
        }
    }
}

/// What is told of a log fed in pieces of a length, and how many bytes had come by then.
fn fed(log: &[u8], limit: usize, length: usize) -> Vec<(String, usize)> {
    let answers = fed_answers(log, limit, length).into_iter();
    answers
        .map(|(answer, came)| (fed_line(answer), came))
        .collect()
}

/// The same, as the answers that they are.
fn fed_answers(log: &[u8], limit: usize, length: usize) -> Vec<(Next, usize)> {
    let mut state = feed::begin(limit as u64).expect("a limit");
    let (mut block, mut buffer) = ([0; BLOCK], vec![0; limit]);
    let mut told = Vec::new();
    for piece in log.chunks(length) {
        let mut rest = piece;
        while !rest.is_empty() {
            let taken = feed::take(&mut state, &mut block, rest).expect("not refused");
            assert!(taken > 0, "no room");
            rest = &rest[taken..];
            while let Told::Answer(answer) = feed::next(&mut state, &block, &mut buffer) {
                assert!(!matches!(answer, Next::End(_)), "not announced");
                told.push((answer, state.came as usize));
            }
        }
    }
    feed::end(&mut state);
    loop {
        let Told::Answer(answer) = feed::next(&mut state, &block, &mut buffer) else {
            panic!("the end is announced");
        };
        told.push((answer, state.came as usize));
        if matches!(answer, Next::End(_)) {
            return told;
        }
    }
}

fn fed_line(answer: Next) -> String {
    match answer {
        Next::Record {
            start, end, length, ..
        } => {
            let [start, end, length] = [start, end, length].map(grouped);
            format!("record {start} to {end}, {length} bytes")
        }
        Next::Skip { start, end, reason } => {
            let [start, end] = [start, end].map(grouped);
            format!("skipped {start} to {end}, reason {reason}")
        }
        Next::End(Tail::Clean) => "end, clean".to_string(),
        Next::End(Tail::Torn(start)) => format!("end, torn at {}", grouped(start)),
        other => panic!("{other:?}"),
    }
}

/// Fed in pieces of a length: as the page tells it of the whole log, but that every record is
/// gathered. Its bytes are said if the page says them.
fn fed_as_told(log: &[u8], limit: usize, length: usize, due: &str) {
    let due: Vec<&str> = due.split("; ").collect();
    let answers = fed(log, limit, length);
    assert_eq!(answers.len(), due.len(), "{answers:?}");
    for ((answer, _), due) in answers.iter().zip(due) {
        let due = due.split(", whole").next().expect("some of it");
        let due = due.trim_end_matches(", gathered");
        let bytes_said = due.contains("bytes") || !due.starts_with("record");
        let same = answer == due || !bytes_said && answer.starts_with(&format!("{due}, "));
        assert!(same, "{answer} for {due}, in pieces of {length}");
    }
}

/// The mended log, and what is answered, as the page tells it.
fn mended(bad: &[u8], fresh: usize, limit: usize) -> (Vec<u8>, String) {
    let (mut fresh, mut buffer) = (vec![0; fresh], vec![0; limit]);
    match mend(bad, &mut fresh, limit, &mut buffer) {
        Mended::Log { length, skipped } => {
            fresh.truncate(length);
            let [length, skipped] = [length, skipped].map(grouped);
            (fresh, format!("length {length}, skipped {skipped}"))
        }
        Mended::Refused { number, .. } => (Vec::new(), format!("refused with number {number}")),
    }
}

#[test]
fn the_picture_mended() {
    let text = part("§12.9", "**§12.10**");
    let (whole, _) = picture();
    let mut bad = whole.clone();
    bad[40_000] ^= 1;
    let (log, answer) = mended(&bad, bad.len(), 262_144);
    says(
        &text,
        &format!("the byte at 40,000 changed, at limit 262,144: {answer}; the mended log is"),
    );
    let answers = fed(&log, 262_144, 200_000);
    let records = answers.iter().filter_map(|(line, _)| {
        let line = line.strip_prefix("record ")?;
        line.split_once(", ")
    });
    let [(one, length), (two, bytes)] = records.collect::<Vec<_>>()[..] else {
        panic!("{answers:?}");
    };
    let length = length.trim_end_matches(" bytes");
    says(
        &text,
        &format!("the records of {length} and {bytes}, from {one} and from {two}."),
    );
    let (log, answer) = mended(&whole, whole.len(), 262_144);
    assert!(log == whole);
    says(&text, &format!("The same log unchanged: {answer}."));
    let (log, answer) = mended(&whole[..106_310], 106_310, 262_144);
    assert!(log == whole[..98_298]);
    says(&text, &format!("Cut to 106,310 bytes: {answer}."));
}

#[test]
fn two_records_mended() {
    let text = part("§12.9", "**§12.10**");
    let (bad, _) = written(&RECORDS);
    let (log, answer) = mended(&bad, bad.len(), 12);
    assert_eq!(log, bad[20..38]);
    let (_, refused) = mended(&bad, 17, 12);
    let low = "The log of §9.1 at limit 12";
    let is = "the mended log is its bytes from 20 to 38";
    says(
        &text,
        &format!(
            "{low}: {answer}, and {is}; but into a fresh slice of 17 bytes this is {refused}."
        ),
    );
}
