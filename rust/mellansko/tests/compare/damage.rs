//! Logs as they were written, then damaged.

use super::hurt::hurt;
use super::{make, Comparison};

pub fn all(c: &mut Comparison) {
    for _ in 0..1_000 {
        let records = 1 + c.random.below(12);
        let mut log = make::written_log(&mut c.random, records);
        let other = make::written_log(&mut c.random, 3);
        for _ in 0..1 + c.random.below(3) {
            hurt(&mut c.random, &mut log, &other);
        }
        c.examine(&log);
    }
}
