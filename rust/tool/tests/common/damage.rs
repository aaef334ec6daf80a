//! Many logs, most of them damaged.

use super::expect::{add, written};
use super::random::Random;
use reference::log::{fragment, BLOCK, FIRST, FULL, HEADER, LAST, MIDDLE};

/// Small logs: every cut of one with an empty start in it, every byte of it changed, random bytes,
/// and sound fragments in any order with stretches that are none between them.
pub fn small_logs(random: &mut Random) -> Vec<Vec<u8>> {
    let log = [
        written(&[&b""[..], b"1"]),
        fragment(FIRST, b""),
        written(&[&b"LW10-1 0.9137"[..], &[0; 30]]),
    ]
    .concat();
    let mut logs: Vec<Vec<u8>> = (0..=log.len()).map(|end| log[..end].to_vec()).collect();
    for place in 0..log.len() {
        for change in [1, 0x80, 1 + random.below(255) as u8] {
            let mut log = log.clone();
            log[place] ^= change;
            logs.push(log);
        }
    }
    for _ in 0..100 {
        let length = random.below(60);
        logs.push(random.bytes(length));
        logs.push(pieces(random));
        logs.push(pieces(random));
    }
    logs
}

/// Fragments of any type, now and then one that is changed, blank or cut off.
fn pieces(random: &mut Random) -> Vec<u8> {
    let mut log = Vec::new();
    for _ in 0..1 + random.below(6) {
        // Often none, so that there are empty starts.
        let length = random.below(2) * random.below(20);
        let data = random.bytes(length);
        let kind = [0, 1, 1, 2, 2, 3, 4, 4, 5, 255][random.below(10)];
        let mut piece = fragment(kind, &data);
        match random.below(16) {
            0 => piece[random.below(4)] ^= 1,
            1 => piece[5] = 0xff,
            2 => piece.fill(0),
            3 => piece.truncate(random.below(HEADER)),
            _ => {}
        }
        log.extend(piece);
    }
    log
}

/// A dirty trailer of each length: after a record, after the beginning of one, and after an orphan.
/// Each with more in the next block, and cut inside the trailer or right after it.
pub fn dirty_logs() -> Vec<Vec<u8>> {
    let mut logs = Vec::new();
    for (left, kind) in (1..HEADER).flat_map(|left| [FULL, FIRST, MIDDLE].map(|kind| (left, kind)))
    {
        let record = fragment(FULL, &vec![7; BLOCK - 2 * HEADER - left]);
        let mut log = [record, fragment(kind, b""), vec![0; left]].concat();
        let place = BLOCK - left.div_ceil(2);
        log[place] = 1 << left;
        logs.push(log[..=place].to_vec());
        log.extend(fragment(LAST, b"1"));
        log.extend(fragment(FULL, b"2"));
        logs.push(log);
    }
    logs
}

/// Logs of several blocks, cut or changed or both, near a block's end or anywhere.
pub fn long_logs(random: &mut Random, count: usize) -> Vec<Vec<u8>> {
    (0..count).map(|_| long_log(random)).collect()
}

fn long_log(random: &mut Random) -> Vec<u8> {
    let mut log = Vec::new();
    while log.len() < 3 * BLOCK {
        let left = BLOCK - log.len() % BLOCK;
        let length = match random.below(4) {
            0 => random.below(100),
            1 => (left + 3).saturating_sub(random.below(20)),
            2 => left + random.below(2 * BLOCK),
            _ => random.below(10_000),
        };
        add(&mut log, &random.bytes(length));
    }
    for _ in 0..random.below(3) {
        let place = place_in(&log, random);
        log[place] ^= 1 << random.below(8);
    }
    if random.below(3) > 0 {
        log.truncate(place_in(&log, random));
    }
    log
}

fn place_in(log: &[u8], random: &mut Random) -> usize {
    let near_end = random.below(log.len() / BLOCK) * BLOCK + BLOCK - 20 + random.below(40);
    match random.below(2) {
        0 => random.below(log.len()),
        _ => near_end.min(log.len() - 1),
    }
}

/// A log of four blocks in which each kind of doubt and of record has its place: whole in block 1,
/// changed in block 2, a record from block 3 into block 4, and there a torn tail.
pub fn mixed_log() -> Vec<u8> {
    let mut log = written(&[
        vec![1; BLOCK - HEADER],
        vec![2; BLOCK - HEADER],
        vec![3; BLOCK],
        vec![4; 50],
    ]);
    log[BLOCK + 1_000] ^= 1;
    log.truncate(log.len() - 1);
    log
}
