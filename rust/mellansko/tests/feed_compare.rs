//! The proved reader that is fed in pieces against the independent one: every word of state and
//! answer, and every byte that is lent.

#[path = "feed_compare/cuts.rs"]
mod cuts;
#[path = "feed_compare/earliest.rs"]
mod earliest;
#[path = "feed_compare/edges.rs"]
mod edges;
#[path = "compare/forge.rs"]
mod forge;
#[path = "feed_compare/fragments.rs"]
mod fragments;
#[path = "compare/lent.rs"]
mod lent;
#[path = "feed_compare/logs.rs"]
mod logs;
// A part of it.
#[allow(dead_code)]
#[path = "compare/made.rs"]
mod made;
// A part of it.
#[allow(dead_code)]
#[path = "compare/make.rs"]
mod make;
#[path = "compare/mixed.rs"]
mod mixed;
#[path = "compare/odd.rs"]
mod odd;
#[path = "feed_compare/orders.rs"]
mod orders;
#[path = "feed_compare/pair.rs"]
mod pair;
mod random;
#[path = "compare/starts.rs"]
mod starts;
#[path = "feed_compare/states.rs"]
mod states;
#[path = "feed_compare/stored.rs"]
mod stored;
#[path = "compare/trailers.rs"]
mod trailers;
#[path = "feed_compare/words.rs"]
mod words;

use made::{Dirty, Made, Several};
use random::Random;

/// Compares on one kind of inputs, and gives how much was compared.
type Part = fn(&mut Random) -> Made;

fn compare(part: Part, at_least: usize) -> Made {
    let mut random = Random::new();
    // Shown where the test fails.
    println!("{random}");
    let made = part(&mut random);
    let calls = made.calls;
    println!("{calls} calls compared");
    assert!(calls >= at_least, "only {calls} calls compared");
    made
}

#[test]
fn on_logs_whole_cut_and_damaged() {
    compare(logs::all, 100_000)
        .has_met(8, 15)
        .has_met_dirty(Dirty {
            all: 5,
            ..Dirty::default()
        });
}

#[test]
fn on_fragments_as_no_writer_puts_them() {
    compare(fragments::all, 100_000)
        .has_met(1_000, 600)
        .has_met_dirty(Dirty {
            all: 150,
            open: 70,
            open_and_empty: 35,
            cut: 8,
            ..Dirty::default()
        })
        .has_met_several(Several {
            all: 400,
            short: 400,
            empty: 25,
            trailers: 4,
            after_broken: 20,
        });
}

#[test]
fn on_all_ways_of_cutting_short_logs() {
    compare(cuts::all, 200_000)
        .has_met(10_000, 5_000)
        .has_met_dirty(Dirty {
            all: 9_000,
            open: 4_500,
            open_and_empty: 3_000,
            cut: 250,
            ..Dirty::default()
        });
}

#[test]
fn on_calls_in_any_order() {
    compare(orders::all, 40_000)
        .has_met(200, 120)
        .has_met_dirty(Dirty {
            all: 15,
            open: 4,
            open_and_empty: 2,
            ..Dirty::default()
        });
}

#[test]
fn on_states_that_are_made_up() {
    compare(states::all, 300_000)
        .has_met(1_500, 200)
        .has_met_dirty(Dirty {
            all: 2_000,
            open: 1_000,
            open_and_empty: 80,
            cut: 200,
            ..Dirty::default()
        })
        .has_met_several(Several {
            all: 200,
            short: 100,
            empty: 80,
            trailers: 100,
            after_broken: 4,
        });
}

#[test]
fn on_how_an_open_record_was_stored() {
    compare(stored::all, 80_000).has_met_several(Several {
        all: 100,
        short: 80,
        empty: 50,
        trailers: 50,
        ..Several::default()
    });
}

#[test]
fn on_every_condition() {
    compare(edges::all, 800);
}

#[test]
fn on_the_earliest_moment_by_its_definition() {
    compare(earliest::all, 1_000)
        .has_met(15, 12)
        .has_met_dirty(Dirty {
            all: 8,
            open: 2,
            open_and_empty: 1,
            ..Dirty::default()
        });
}
