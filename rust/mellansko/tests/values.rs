//! What is given, as values: in sets, in order, between threads, and as errors.

use mellansko::{
    append, Answer, Certain, Condition, Doubt, Feed, Incoming, Mended, Next, NotRead, NotWhole,
};
use mellansko::{Reading, Reason, Record, Refusal, Skip, Stored, Tail, LONGEST_RECORD};
use reference::log::{fragment, FIRST, FULL, LAST};
use std::collections::HashSet;
use std::error::Error;
use std::fmt::Debug;
use std::hash::{BuildHasher, BuildHasherDefault, DefaultHasher, Hash};

/// A gathered record, whole ones of which two have the same bytes, a range in doubt, an empty start,
/// and a torn tail.
fn log() -> Vec<u8> {
    let mut log = vec![0; 100];
    let mut mark = 0;
    for record in [&b"LW10-1"[..], b"LW11", b"LW10-1"] {
        mark = append(&mut log, mark, record).expect("room for it");
    }
    log.truncate(mark);
    for (kind, data) in [
        (FIRST, "LW"),
        (LAST, "12"),
        (LAST, "??"),
        (FIRST, ""),
        (FULL, ""),
    ] {
        log.extend(fragment(kind, data.as_bytes()));
    }
    log.extend([0; 3]);
    log
}

/// Each of the log's answers is another one, and the same as that of another reading, whether its
/// bytes are lent or its own.
#[test]
fn in_a_set() {
    let log = log();
    let of = |answer: Answer| BuildHasherDefault::<DefaultHasher>::default().hash_one(answer);
    let answers: Vec<u64> = Reading::of(&log).expect("no refusal").map(of).collect();
    assert_eq!(answers.iter().collect::<HashSet<_>>().len(), 8);
    let mut reading = Reading::of(&log).expect("no refusal");
    let mut lent = Vec::new();
    while let Some(answer) = reading.advance() {
        lent.push(of(answer));
    }
    assert_eq!(lent, answers);
    let errors = [10, 20, log.len(), log.len()].map(|end| mellansko::records(&log[..end]));
    let errors: HashSet<NotWhole> = errors.map(Result::unwrap_err).into_iter().collect();
    assert_eq!(errors.len(), 3);
}

/// Records are the same only if all of their numbers are: those of how they were stored too.
#[test]
fn number_by_number() {
    let log = log();
    let Ok((Next::Record(record), _)) = mellansko::next(&log, 0, 6, &mut [0; 6]) else {
        panic!("a record");
    };
    let changes: [fn(&mut Record); 6] = [
        |record| record.start += 1,
        |record| record.end += 1,
        |record| record.length += 1,
        |record| record.stored = Stored::Gathered,
        |record| record.fragments += 1,
        |record| record.last_header += 1,
    ];
    let mut all = HashSet::from([record, record]);
    for change in changes {
        let mut other = record;
        change(&mut other);
        assert_ne!(other, record);
        all.insert(other);
    }
    assert_eq!(all.len(), 7);
    let shown = format!("{record:?}");
    assert!(shown.ends_with("fragments: 1, last_header: 0 }"), "{shown}");
}

#[test]
fn in_order() {
    let rise = |numbers: Vec<u8>| assert!(numbers.is_sorted(), "{numbers:?}");
    let mut reasons = Reason::ALL.to_vec();
    reasons.reverse();
    reasons.sort();
    rise(reasons.into_iter().map(Reason::number).collect());
    let mut conditions = Condition::ALL.to_vec();
    conditions.reverse();
    conditions.sort();
    rise(conditions.into_iter().map(Condition::number).collect());
}

/// All of them are plain values, the errors are such, and what reads may go to another thread.
#[test]
fn of_their_types() {
    fn value<T: Clone + Debug + Eq + Hash + Send + Sync>() {}
    fn small<T: Copy>() {}
    fn error<T: Error + Send + Sync + 'static>() {}
    fn sent<T: Debug + Send + Sync>() {}
    value::<(Next, Record, Stored, Skip, Tail, Reason)>();
    value::<(Refusal, Condition, Answer, Doubt, NotWhole, Mended)>();
    small::<(Next, Refusal, Mended)>();
    error::<Refusal>();
    error::<NotWhole>();
    error::<NotRead>();
    sent::<(Feed, Certain, Incoming<&[u8]>, Reading)>();
    let refused = Reading::with_limit(&[], LONGEST_RECORD + 1).expect_err("a limit too high");
    assert_eq!(NotWhole::from(refused), NotWhole::Refused(refused));
}
