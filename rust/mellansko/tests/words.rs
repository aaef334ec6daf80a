//! The words for people, as they are to be read: beside the numbers and names of docs/FORMAT.md
//! (§4.7, §5.1, §11.11, §12.5, §13.5, §14.5).

use mellansko::{records, records_with_limit, Condition, Reason, Refusal, Skip, Tail};
use reference::log::{fragment, FIRST, FULL, LAST};

#[test]
fn of_the_reasons() {
    let words = [
        (
            "bad length",
            "a stored length runs past the end of its block",
        ),
        (
            "blank",
            "a header with neither type nor length, as in a stretch of zeros",
        ),
        ("checksum", "the stored checksum is not that of the bytes"),
        (
            "interrupted",
            "a record that breaks off before its last piece",
        ),
        ("orphan", "a piece of a record whose beginning is missing"),
        (
            "unknown type",
            "a piece of a kind that this format does not have",
        ),
        ("over the limit", "a record longer than the limit"),
        (
            "empty start",
            "an empty start: a record begun with no bytes, and then begun again",
        ),
        (
            "dirty trailer",
            "the bytes that fill up a block are not all zero",
        ),
    ];
    assert_eq!(Reason::ALL.len(), words.len());
    for ((reason, (name, words)), number) in Reason::ALL.iter().zip(words).zip(1..) {
        assert_eq!((reason.number(), reason.name()), (number, name));
        assert_eq!(reason.is_loss(), number != 8);
        assert_eq!(reason.to_string(), words);
        let (start, end, reason) = (7, 1_234, *reason);
        let skip = Skip { start, end, reason };
        assert_eq!(skip.to_string(), format!("7 to 1234: {words}"));
    }
}

#[test]
fn of_the_conditions() {
    let words = [
        (1, "the log is longer than 1073741824 bytes"),
        (2, "mark or place 9 is beyond the log's end"),
        (3, "the record is longer than 4194304 bytes"),
        (
            4,
            "the log has no room for what is to be written from mark 9 on",
        ),
        (5, "the limit is above 4194304 bytes"),
        (6, "the buffer is shorter than the limit"),
        (20, "the log's end was announced before the piece"),
    ];
    assert_eq!(Condition::ALL.len(), words.len());
    for (&condition, (number, words)) in Condition::ALL.iter().zip(words) {
        assert_eq!(condition.number(), number);
        let refusal = Refusal {
            condition,
            given: 9,
        };
        assert_eq!(refusal.to_string(), words);
    }
}

#[test]
fn of_the_ends() {
    assert_eq!(Tail::Clean.to_string(), "clean");
    assert_eq!(Tail::Torn(49).to_string(), "torn from 49 on");
}

#[test]
fn of_what_is_not_whole() {
    let orphan = fragment(LAST, b"");
    let torn = &fragment(FULL, b"LW10-1")[..9];
    let words = "a piece of a record whose beginning is missing";
    let first = format!("the log is in doubt from 0 to 7: {words}");
    let said = |parts: &[&[u8]]| records(&parts.concat()).unwrap_err().to_string();
    assert_eq!(said(&[&orphan]), first);
    assert_eq!(
        said(&[&orphan, &orphan]),
        format!("{first}; in doubt in 1 more range")
    );
    assert_eq!(
        said(&[&orphan, &orphan, &orphan, torn]),
        format!("{first}; in doubt in 2 more ranges; torn from 21 on")
    );
    assert_eq!(said(&[&orphan, torn]), format!("{first}; torn from 7 on"));
    // An empty start is neither the first range in doubt nor one more.
    let begun = fragment(FIRST, b"");
    let full = fragment(FULL, b"");
    assert_eq!(
        said(&[&begun, &full, &orphan, &begun, &full, &begun, &full]),
        format!("the log is in doubt from 14 to 21: {words}")
    );
    assert_eq!(said(&[&begun, &full, torn]), "the log is torn from 14 on");
    assert_eq!(said(&[torn]), "the log is torn from 0 on");
    let refused = records_with_limit(&[], 4_194_305).unwrap_err();
    let words = "the log was not read: the limit is above 4194304 bytes";
    assert_eq!(refused.to_string(), words);
}
