//! The proved writer and reader against the independent ones.

mod compare;
mod expected;
mod random;
mod strict;

use compare::{Dirty, Several};
use mellansko::numbers::{self, Numbers};
use strict::Strict;

struct Proved;

impl compare::Calls for Proved {
    fn append(&self, log: &mut [u8], mark: usize, record: &[u8]) -> Numbers {
        answered(|answer| numbers::append(log, mark, record, answer))
    }

    fn next(&self, log: &[u8], place: usize, limit: usize, buffer: &mut [u8]) -> Numbers {
        answered(|answer| numbers::next(log, place, limit, buffer, answer))
    }

    fn records(&self, log: &[u8], limit: usize) -> Strict {
        strict::of(mellansko::records_with_limit(log, limit))
    }
}

/// The numbers of a call's answer. Before it they are such as no answer has, so that one which is
/// left out shows. What the call returns is the first of them.
fn answered(call: impl FnOnce(&mut Numbers) -> u64) -> Numbers {
    let mut answer = [u64::MAX; 10];
    let kind = call(&mut answer);
    assert_eq!(kind, answer[0], "the kind that is returned, of {answer:?}");
    answer
}

#[test]
fn on_100_000_calls() {
    let made = compare::everything(&Proved);
    let calls = made.calls;
    println!("{calls} calls compared");
    assert!(calls >= 100_000, "only {calls} calls compared");
    made.has_met(5_000, 5_000)
        .has_met_dirty(Dirty {
            all: 5_000,
            open: 900,
            open_and_empty: 500,
            cut: 200,
            made_up: 3_000,
        })
        .has_met_several(Several {
            all: 4_000,
            short: 2_000,
            empty: 250,
            trailers: 150,
            after_broken: 150,
        });
}
