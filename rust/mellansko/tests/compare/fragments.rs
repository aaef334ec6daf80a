//! Logs made of fragments as no writer puts them.

use super::{mixed, starts, trailers, Comparison};
use reference::log::BLOCK;

pub fn all(c: &mut Comparison) {
    for _ in 0..3_000 {
        let length = c.random.below(400) + c.random.below(4) * BLOCK;
        let log = mixed::log(&mut c.random, length);
        c.examine(&log);
    }
    for _ in 0..2_000 {
        let log = starts::log(&mut c.random);
        c.examine(&log);
    }
    for _ in 0..1_000 {
        let log = trailers::log(&mut c.random);
        c.examine(&log);
    }
}
