//! Records in more and shorter fragments than an append makes, some of them empty, with trailers
//! between them and broken records before them. A reader that counts bytes instead of fragments, or
//! goes on from the count of a record that broke off, or takes a trailer for a fragment, says other
//! numbers.

use crate::fed::piece_length;
use crate::laid::Laid;
use crate::random::Random;
use crate::read::{in_pieces, whole};
use mellansko::LONGEST_RECORD;
use reference::log::{fragment, FIRST, LAST, MIDDLE};

#[test]
fn by_both_readers() {
    let mut random = Random::new();
    println!("{random}");
    let (mut several, mut zeros) = (0, 0);
    for _ in 0..200 {
        let laid = Laid::new(20, &mut random);
        assert_eq!(whole(&laid.log), laid.records);
        let fed = in_pieces(pieces(&laid.log, &mut random), LONGEST_RECORD);
        assert_eq!(fed, laid.records);
        several += laid.records.iter().filter(|record| record[3] > 2).count();
        zeros += laid.zeros;
    }
    // Logs without these would show nothing.
    assert!(several > 500 && zeros > 500, "{several}, {zeros}");
}

/// A log in pieces of any lengths.
fn pieces<'a>(log: &'a [u8], random: &mut Random) -> Vec<&'a [u8]> {
    let (mut pieces, mut rest) = (Vec::new(), log);
    while !rest.is_empty() {
        let (piece, after) = rest.split_at(piece_length(random).min(rest.len()));
        pieces.push(piece);
        rest = after;
    }
    pieces
}

/// A fragment that takes a record over the limit ends it: what comes after it is counted anew.
#[test]
fn after_a_record_that_is_over_the_limit() {
    let parts = [(FIRST, 3), (MIDDLE, 2), (FIRST, 1), (MIDDLE, 0), (LAST, 3)];
    let log = parts.map(|(kind, length)| fragment(kind, &vec![7; length]));
    let log = log.concat();
    assert_eq!(in_pieces(log.chunks(1), 4), [[19, 44, 4, 3, 34]]);
    assert_eq!(in_pieces([&log[..]], 4), [[19, 44, 4, 3, 34]]);
}
