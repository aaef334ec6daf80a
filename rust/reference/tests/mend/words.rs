//! Answers as ten words (§12.10).

use crate::random::Random;
use reference::log::{LONGEST_LOG, LONGEST_RECORD};
use reference::mend::{mend, mend_words, Mended};
use reference::runs::example;

#[test]
fn of_the_examples() {
    let mut log = example::log();
    let mut fresh = vec![0; log.len()];
    let mut buffer = vec![0; LONGEST_RECORD];
    let mut words = |bad: &[u8]| mend_words(bad, &mut fresh, LONGEST_RECORD, &mut buffer);
    assert_eq!(words(&log), [0, 106_311, 0, 0, 0, 0, 0, 0, 0, 0]);
    assert_eq!(words(&log[..106_310]), [0, 98_298, 0, 0, 0, 0, 0, 0, 0, 0]);
    assert_eq!(words(&[]), [0; 10]);
    log[40_000] ^= 1;
    assert_eq!(words(&log), [0, 9_014, 97_291, 0, 0, 0, 0, 0, 0, 0]);
}

#[test]
fn of_refusals() {
    let log = example::log();
    let long = vec![0; LONGEST_LOG + 1];
    let refused = |number| [1, number, 0, 0, 0, 0, 0, 0, 0, 0];
    let mut buffer = vec![0; LONGEST_RECORD + 1];
    let mut words = |bad: &[u8], fresh: usize, limit: usize, lent: usize| {
        mend_words(bad, &mut vec![0; fresh], limit, &mut buffer[..lent])
    };
    assert_eq!(words(&long, 0, 0, 0), refused(1));
    assert_eq!(words(&log, 0, 4_194_305, 4_194_305), refused(5));
    assert_eq!(words(&log, 0, 4_194_304, 4_194_303), refused(6));
    assert_eq!(words(&log, 106_310, 4_194_304, 4_194_304), refused(4));
}

/// Both ways change the same bytes, and say the same.
#[test]
fn are_the_plain_numbers() {
    let random = &mut Random::new();
    println!("{random}");
    for _ in 0..500 {
        let length = random.below(300);
        let bad = crate::mixed::log(random, length);
        let (mut fresh, mut buffer) = (random.bytes(length), random.bytes(200));
        let (mut plain_fresh, mut plain_buffer) = (fresh.clone(), buffer.clone());
        let limit = random.below(202);
        let words = mend_words(&bad, &mut fresh, limit, &mut buffer);
        let due = match mend(&bad, &mut plain_fresh, limit, &mut plain_buffer) {
            Mended::Log { length, skipped } => [0, length, skipped],
            Mended::Refused { number, given } => [1, number.into(), given],
        };
        assert_eq!(words[..3], due.map(|word| word as u64));
        assert_eq!(words[3..], [0; 7]);
        assert!(fresh == plain_fresh && buffer == plain_buffer, "{random}");
    }
}
