//! The records of a log, by both readers.

use mellansko::{next, Answer, Feed, Next, Reading, Record, Stored, LONGEST_RECORD};

/// Start, end, length, fragments, and last header.
pub type Numbers = [usize; 5];

/// Of a record of a whole log. One that is whole in it is one fragment, which starts where it does;
/// any other is several (§16.3).
fn of_whole(record: &Record) -> Numbers {
    let whole = matches!(record.stored, Stored::Whole(_));
    assert_eq!(whole, record.fragments == 1, "{record:?}");
    assert_eq!(whole, record.last_header == record.start, "{record:?}");
    of(record)
}

fn of(record: &Record) -> Numbers {
    assert!(record.fragments >= 1, "{record:?}");
    [
        record.start,
        record.end,
        record.length,
        record.fragments,
        record.last_header,
    ]
}

/// The records of a log that is lent whole.
pub fn whole(log: &[u8]) -> Vec<Numbers> {
    let mut reading = Reading::of(log).expect("no refusal");
    let mut records = Vec::new();
    while let Some(answer) = reading.advance() {
        if let Answer::Record { record, .. } = answer {
            records.push(of_whole(&record));
        }
    }
    records
}

/// The record that is read from a place on.
pub fn at(log: &[u8], place: usize) -> Numbers {
    match next(log, place, LONGEST_RECORD, &mut vec![0; LONGEST_RECORD]) {
        Ok((Next::Record(record), _)) => of_whole(&record),
        other => panic!("{other:?} at {place}"),
    }
}

/// The records of a log that comes in pieces, each of which says that it is gathered.
pub fn in_pieces<'a>(pieces: impl IntoIterator<Item = &'a [u8]>, limit: usize) -> Vec<Numbers> {
    let mut feed = Feed::with_limit(limit).expect("no refusal");
    let mut records = Vec::new();
    let mut note = |answer: Answer| {
        if let Answer::Record { record, .. } = answer {
            assert_eq!(record.stored, Stored::Gathered);
            records.push(of(&record));
        }
    };
    for piece in pieces {
        feed.push(piece).expect("no refusal").for_each(&mut note);
    }
    feed.end();
    feed.certain().for_each(&mut note);
    records
}
