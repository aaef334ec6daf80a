//! Logs with a trailer in them, of zeros or dirty (docs/FORMAT.md, §14).

use super::make::pick;
use super::odd::trailer;
use crate::random::Random;
use reference::log::{fragment, BLOCK, FIRST, FULL, HEADER, LAST, MIDDLE};

/// What ends 1 to 6 bytes before the end of its block: a record, an orphan, or the beginning of a
/// record, which is often empty. Then the trailer, and what comes in the next block; or the log ends
/// inside the trailer or right after it.
pub fn log(random: &mut Random) -> Vec<u8> {
    let left = 1 + random.below(HEADER - 1);
    let kind = pick(random, &[FULL, FIRST, FIRST, MIDDLE]);
    let data = random.below(2) * random.below(9);
    let before = BLOCK - 2 * HEADER - data - left;
    let mut log = fragment(FULL, &random.bytes(before));
    log.extend(fragment(kind, &random.bytes(data)));
    log.extend(trailer(random, left));
    if random.below(3) == 0 {
        log.truncate(BLOCK - random.below(left));
        return log;
    }
    let kind = pick(random, &[FULL, FIRST, MIDDLE, LAST, LAST, 5]);
    let data = random.below(9);
    log.extend(fragment(kind, &random.bytes(data)));
    log.extend(fragment(FULL, b"LW12"));
    log
}
