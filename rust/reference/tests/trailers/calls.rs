//! The bound of §6.3 on the calls that a reading takes: met exactly, and never passed.

use reference::log::{fragment, next, Next, BLOCK, FULL, HEADER, LAST};

/// ⌊N / 7⌋ + 1 + ⌈N / 32,768⌉.
pub fn most_calls(length: usize) -> usize {
    length / HEADER + 1 + length.div_ceil(BLOCK)
}

/// How many calls a reading takes, and how many of them give reason 9.
fn calls(log: &[u8]) -> (usize, usize) {
    let (mut place, mut calls, mut dirty) = (0, 0, 0);
    loop {
        let answer = next(log, place, 2, &mut [0; 2]);
        calls += 1;
        match answer {
            Next::End(_) => return (calls, dirty),
            Next::Skip { reason: 9, .. } => dirty += 1,
            Next::Refused { .. } => panic!("{answer:?} of a reading"),
            _ => {}
        }
        place = answer.place_after(log);
    }
}

/// Fragments without data up to a trailer, which is dirty in its first byte. What they leave of the
/// block beside the trailer is the data of one of them.
fn block(kind: u8, trailer: usize) -> Vec<u8> {
    let fragments = (BLOCK - trailer) / HEADER;
    let data = (BLOCK - trailer) % HEADER;
    let mut block = fragment(kind, b"").repeat(fragments - 1);
    block.extend(fragment(kind, &vec![7; data]));
    block.push(1);
    block.resize(BLOCK, 0);
    block
}

/// 4,681 ranges of seven bytes and a dirty trailer of one byte in each block: that is as many calls
/// as there may be, up to six blocks. Records and skipped ranges alike.
#[test]
fn as_many_as_there_may_be() {
    for kind in [FULL, LAST] {
        for blocks in 1..=6 {
            let log = block(kind, 1).repeat(blocks);
            assert_eq!(calls(&log), (most_calls(log.len()), blocks));
        }
        // The seventh byte that the trailers have together is one that they could do without.
        let log = block(kind, 1).repeat(7);
        assert_eq!(calls(&log), (most_calls(log.len()) - 1, 7));
    }
}

/// A log that ends with the first byte of its trailer takes no fewer. 32,762 bytes are 4,680 ranges,
/// one of which has two bytes more.
#[test]
fn cut_in_a_trailer() {
    let log = &block(FULL, 6)[..BLOCK - 5];
    assert_eq!(calls(log), (most_calls(log.len()), 1));
    let log = [block(FULL, 1), log.to_vec()].concat();
    assert_eq!(calls(&log), (most_calls(log.len()), 2));
}

/// Cut anywhere near a block's end, with trailers of each length, the bound holds; and where it is
/// met there is a dirty trailer in every block.
#[test]
fn never_more() {
    let before = block(LAST, 1);
    for trailer in 1..HEADER {
        let log = [&before[..], &block(FULL, trailer), &fragment(FULL, b"")].concat();
        for cut in 2 * BLOCK - 20..=log.len() {
            let (calls, dirty) = calls(&log[..cut]);
            let most = most_calls(cut);
            assert!(calls <= most, "{calls} calls for {cut} bytes");
            assert!(calls < most || dirty == cut.div_ceil(BLOCK), "{cut}");
        }
    }
}
