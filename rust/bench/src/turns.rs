//! Timing of several ways to do the same thing.

use std::time::{Duration, Instant};

/// Does the thing once and says how long it took.
pub type Way<'a> = Box<dyn FnMut() -> Duration + 'a>;

pub fn timed(mut run: impl FnMut()) -> impl FnMut() -> Duration {
    move || {
        let began = Instant::now();
        run();
        began.elapsed()
    }
}

/// The best time of each way. They take turns, so that whatever else the machine does falls on all.
pub fn best(rounds: usize, ways: &mut [Way]) -> Vec<Duration> {
    let mut best = vec![Duration::MAX; ways.len()];
    for _ in 0..rounds {
        for (best, way) in best.iter_mut().zip(ways.iter_mut()) {
            *best = way().min(*best);
        }
    }
    best
}

/// Bytes in a time, as MB/s.
pub fn rate(bytes: usize, time: Duration) -> f64 {
    bytes as f64 / 1e6 / time.as_secs_f64()
}
