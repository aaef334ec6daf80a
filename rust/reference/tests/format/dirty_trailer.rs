//! The examples of §14.7: read, fed in pieces, and mended.

use super::{bytes, fed, fed_as_told, grouped, line, mended, picture, says, table, told, PAGE};
use reference::log::{fragment, next, FIRST, FULL, LAST};

/// The page from the examples on.
fn page() -> &'static str {
    let start = PAGE.find("**§14.7**").expect("the number");
    &PAGE[start..]
}

/// The same in one line.
fn text() -> String {
    page().split_whitespace().collect::<Vec<_>>().join(" ")
}

/// The two tables: the log of the picture, and the trailers inside a record.
fn tables() -> [Vec<Vec<String>>; 2] {
    let mut lines = page().lines();
    [4, 2].map(|length| {
        let rows = table(&mut lines);
        assert_eq!(rows.len(), length, "{rows:?}");
        rows
    })
}

/// The log of §9.2 with a byte of its trailer changed.
fn changed() -> Vec<u8> {
    says(&text(), "a trailer from 98,298 to 98,304.");
    says(&text(), "with the byte at 98,300 changed to 01:");
    let (mut log, _) = picture();
    assert_eq!(log[98_298..98_304], [0; 6]);
    log[98_300] = 1;
    log
}

#[test]
fn the_picture_with_a_dirty_trailer() {
    let log = changed();
    let [rows, _] = tables();
    for row in &rows[..3] {
        let log = match row[0].as_str() {
            "all of it" => &log[..],
            "cut to 98,301 bytes" => &log[..98_301],
            "cut to 98,300 bytes" => &log[..98_300],
            other => panic!("{other}"),
        };
        assert_eq!(told(log, 262_144).join("; "), row[1], "{row:?}");
        for length in [1, 6, 7, 1_000, 32_767, 32_768, 200_000] {
            fed_as_told(log, 262_144, length, &row[1]);
        }
    }
    let [call, answer] = &rows[3][..] else {
        panic!("{rows:?}");
    };
    assert_eq!(call, "all of it, a call at 98,301");
    let one = next(&log, 98_301, 262_144, &mut vec![0; 262_144]);
    assert_eq!(line(one), *answer);
}

/// The trailer counts as skipped, and the mended log has it as the writer leaves it.
#[test]
fn the_first_mended() {
    let log = changed();
    let (fresh, answer) = mended(&log, log.len(), 262_144);
    let same = "mended into a fresh slice as long as it is";
    says(
        &text(),
        &format!("The first of them, {same}: {answer}, and the mended log is that of §9.2."),
    );
    assert!(fresh == picture().0);
}

/// How many bytes have come when the one answer of a reason is given, fed byte by byte.
fn moment(log: &[u8], reason: u8) -> usize {
    let answers = fed(log, 262_144, 1);
    let ends = format!(", reason {reason}");
    let mut found = answers.iter().filter(|(line, _)| line.ends_with(&ends));
    let (_, came) = found.next().expect("the reason");
    assert_eq!(found.next(), None);
    *came
}

#[test]
fn the_pictures_moments() {
    let log = changed();
    let first = grouped(moment(&log, 9));
    says(
        &text(),
        &format!(
            "its reason 9 is given when {first} bytes have come; that of the second when its end"
        ),
    );
    // A byte later there is still no answer, if the log goes on: so it is the end that settles it.
    assert_eq!(moment(&log[..98_301], 9), 98_301);
    assert_eq!(moment(&log[..98_302], 9), 98_302);
}

/// A record without data that a trailer is inside of.
pub fn inside(trailer: &[u8]) -> Vec<u8> {
    let mut log = fragment(FULL, &[1; 32_748]);
    says(&text(), &format!("a FULL from 0 to {}", grouped(log.len())));
    log.extend(fragment(FIRST, b""));
    says(&text(), &format!("to {}; a trailer", grouped(log.len())));
    log.extend(trailer);
    let start = grouped(log.len());
    log.extend(fragment(LAST, b""));
    let end = grouped(log.len());
    says(
        &text(),
        &format!("a LAST without data, from {start} to {end}."),
    );
    log
}

#[test]
fn a_trailer_inside_a_record() {
    let [_, rows] = tables();
    for row in rows {
        let log = inside(&bytes(&row[0]));
        // Here the page says a length as well, which `fed_as_told` holds.
        let due = row[1].replace(", 0 bytes", "");
        assert_eq!(told(&log, 262_144).join("; "), due, "{row:?}");
        for length in [1, 6, 7, 1_000, 32_767, 32_768, 200_000] {
            fed_as_told(&log, 262_144, length, &row[1]);
        }
    }
}

#[test]
fn the_moments_inside_a_record() {
    let last = inside(&[0, 0, 0, 0, 0, 1]);
    let both = grouped(moment(&last, 4));
    assert_eq!(both, grouped(moment(&last, 9)));
    says(
        &text(),
        &format!("the reason 4 of the second is given when {both} bytes have come, and its reason 9 then too."),
    );
    let first = inside(&[1, 0, 0, 0, 0, 0]);
    let soon = grouped(moment(&first, 4));
    says(
        &text(),
        &format!("With the byte 01 first in the trailer the reason 4 is given when {soon} bytes have come."),
    );
    assert_eq!(grouped(moment(&first, 9)), both);
}
