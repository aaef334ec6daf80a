//! What `verify --all` is to say of a log, by the reference's answers.

use super::expect::{block_numbers, numbers, Found, Gap};
use reference::log::BLOCK;

/// As docs/FORMAT.md names the reasons, §4.7.
const NAMES: [&str; 9] = [
    "bad length",
    "blank",
    "checksum",
    "interrupted",
    "orphan",
    "unknown type",
    "over the limit",
    "empty start",
    "dirty trailer",
];

/// Holds the lines on one journal to the reference: the answer, what is said of empty starts, and
/// each gap with its ranges. Gives those after them.
pub fn check<'a>(name: &str, log: &[u8], lines: &'a [&'a str]) -> &'a [&'a str] {
    let found = Found::in_log(log);
    let verdict = lines[0].strip_prefix(name).expect(name);
    check_verdict(verdict, &found);
    check_gaps(&found, check_empty_starts(&found, &lines[1..]))
}

/// Holds the line on empty starts, which is there if there are any, and once. Gives those after it.
pub fn check_empty_starts<'a>(found: &Found, lines: &'a [&'a str]) -> &'a [&'a str] {
    let said = lines.iter().take_while(|line| line.contains("empty start"));
    assert_eq!(said.count(), usize::from(!found.empty_starts.is_empty()));
    let Some(first) = found.empty_starts.first() else {
        return lines;
    };
    let bytes = found.empty_starts.iter().map(|range| range.len()).sum();
    let mut expected = match found.empty_starts.len() {
        1 => vec![1],
        number => vec![number, bytes],
    };
    expected.extend([first.start, first.end, first.len()]);
    expected.extend(block_numbers(first));
    expected.push(8);
    assert_eq!(numbers(lines[0]), expected, "{}", lines[0]);
    assert!(lines[0].contains(" (reason 8, empty start)."));
    &lines[1..]
}

/// Holds a list of all gaps, each with its ranges. Gives the lines after it.
pub fn check_gaps<'a>(found: &Found, lines: &'a [&'a str]) -> &'a [&'a str] {
    let mut rest = lines;
    for gap in found.gaps() {
        check_heading(rest[0], &gap, found);
        rest = &rest[1..];
        for (range, reason) in &gap.ranges {
            let mut expected = vec![range.start, range.end, range.len()];
            expected.extend(block_numbers(range));
            expected.extend(reason.map(usize::from));
            assert_eq!(numbers(rest[0]), expected, "{}", rest[0]);
            check_reason(rest[0], *reason);
            rest = &rest[1..];
        }
    }
    rest
}

/// Holds the answer to the reference: what it says of the file, and every figure in it.
pub fn check_verdict(verdict: &str, found: &Found) {
    let sound = verdict.starts_with(": no damage found");
    assert_eq!(sound, found.is_whole(), "{verdict}");
    assert_eq!(verdict.starts_with(": IN DOUBT: "), !sound, "{verdict}");
    // No more than is known.
    for claim in ["whole", "ok", "sound", "intact", "valid", "nothing"] {
        assert!(!verdict.to_lowercase().contains(claim), "{verdict}");
    }
    assert_eq!(numbers(verdict), figures(found), "{verdict}");
}

/// Those of the bytes in doubt, how many records can be read, and where the last one stands.
fn figures(found: &Found) -> Vec<usize> {
    if found.length == 0 {
        return Vec::new();
    }
    let mut figures = figures_of_doubt(found);
    let records = found.records.len();
    if let Some((last, _)) = found.records.last() {
        let times = if records == 1 { 1 } else { 2 };
        figures.extend(vec![records; times]);
        figures.extend([last.start, last.end]);
    }
    figures
}

/// The bytes in doubt unless that is all of them, all bytes, the blocks in doubt if there are any,
/// all blocks, and where a torn tail starts.
pub fn figures_of_doubt(found: &Found) -> Vec<usize> {
    let doubt: usize = found.doubtful().iter().map(|range| range.len()).sum();
    let mut figures = Vec::new();
    figures.extend((doubt > 0 && doubt < found.length).then_some(doubt));
    figures.push(found.length);
    figures.extend(doubtful_blocks(found));
    figures.push(found.blocks());
    figures.extend(found.torn);
    figures
}

/// The first and the last of each run of blocks in doubt; how many there are, if in many runs.
fn doubtful_blocks(found: &Found) -> Vec<usize> {
    let mut doubtful = vec![false; found.blocks() + 1];
    for range in found.doubtful() {
        doubtful[range.start / BLOCK..=(range.end - 1) / BLOCK].fill(true);
    }
    let (mut ends, mut runs) = (Vec::new(), 0);
    for block in 0..found.blocks() {
        let before = block > 0 && doubtful[block - 1];
        let (this, after) = (doubtful[block], doubtful[block + 1]);
        if this && (!before || !after) {
            ends.push(block + 1);
        }
        runs += usize::from(this && !after);
    }
    match runs {
        0..=3 => ends,
        _ => vec![doubtful.iter().filter(|&&doubtful| doubtful).count()],
    }
}

/// Holds a gap's heading to the records that it lies between.
pub fn check_heading(line: &str, gap: &Gap, found: &Found) {
    let before = gap.before.checked_sub(1).map(|i| &found.records[i].0);
    let after = found.records.get(gap.before).map(|(range, _)| range);
    let (words, place) = match (before, after) {
        (Some(before), Some(after)) => (
            ", between record ",
            vec![gap.before, before.end, gap.before + 1, after.start],
        ),
        (None, Some(after)) => (", before the first readable record, ", vec![after.start]),
        (Some(before), None) => (
            ", after the last readable record, ",
            vec![gap.before, before.end],
        ),
        (None, None) => (", with no readable record before it or after it", vec![]),
    };
    let mut expected = vec![gap.bytes()];
    expected.extend(block_numbers(&gap.span()));
    expected.extend(place);
    assert!(
        line.starts_with("Gap of ") && line.contains(words),
        "{line}"
    );
    assert_eq!(numbers(line), expected, "{line}");
}

fn check_reason(line: &str, reason: Option<u8>) {
    assert!(line.starts_with("  - bytes "), "{line}");
    let says = match reason {
        Some(reason) => format!("(reason {reason}, {})", NAMES[usize::from(reason) - 1]),
        None => "torn tail, the journal ends inside of what starts here".into(),
    };
    assert!(line.ends_with(&says), "{line}");
}
