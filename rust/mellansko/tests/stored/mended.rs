//! A mended log is made by appends, so its records have the numbers of §16.5 there, whatever they had
//! in the bad log (§16.6).

use crate::appended::is_as_appended;
use crate::fed::logs;
use crate::laid::Laid;
use crate::random::Random;
use crate::read::{in_pieces, whole};
use mellansko::LONGEST_RECORD;

/// The mended log's records are as appended, and as long as the bad one's.
fn mends(bad: &[u8]) {
    let (mut fresh, mut buffer) = (vec![0xA5; bad.len()], vec![0; LONGEST_RECORD]);
    let mended = mellansko::mend(bad, &mut fresh, LONGEST_RECORD, &mut buffer);
    fresh.truncate(mended.expect("room").length);
    let records = whole(&fresh);
    records.iter().copied().for_each(is_as_appended);
    let lengths = |record: &[usize; 5]| record[2];
    let kept = whole(bad);
    assert!(records.iter().map(lengths).eq(kept.iter().map(lengths)));
    assert_eq!(in_pieces(fresh.chunks(1_000), LONGEST_RECORD), records);
}

#[test]
fn of_records_in_odd_fragments() {
    let mut random = Random::new();
    println!("{random}");
    let mut others = 0;
    for _ in 0..40 {
        let laid = Laid::new(10, &mut random);
        mends(&laid.log);
        let odd = |record: &&[usize; 5]| record[1] - record[0] > record[2] + 14;
        others += laid.records.iter().filter(odd).count();
    }
    assert!(others > 50, "{others}");
}

#[test]
fn of_logs_whole_cut_and_damaged() {
    let mut random = Random::new();
    println!("{random}");
    for (log, _) in logs(&mut random) {
        mends(&log);
    }
}
