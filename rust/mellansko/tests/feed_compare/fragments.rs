//! Fragments as no writer puts them, empty starts and dirty trailers among them, in pieces of all
//! kinds.

use crate::logs::fed;
use crate::made::Made;
use crate::make::{any_length, pick};
use crate::random::Random;
use crate::{mixed, starts, trailers};
use reference::log::BLOCK;

pub fn all(random: &mut Random) -> Made {
    let mut made = Made::default();
    for round in 0..2_000 {
        let blocks = if round % 8 == 0 { random.below(3) } else { 0 };
        let length = random.below(400) + blocks * BLOCK;
        let log = mixed::log(random, length);
        let any = any_length(random, 9);
        let limit = pick(random, &[any, length]);
        made += fed(&log, limit, random);
    }
    for _ in 0..400 {
        let log = starts::log(random);
        let limit = pick(random, &[0, 8, 16, BLOCK]);
        made += fed(&log, limit, random);
    }
    for _ in 0..400 {
        let log = trailers::log(random);
        let limit = pick(random, &[0, 8, 16, BLOCK]);
        made += fed(&log, limit, random);
    }
    made
}
