//! The proved mending against the independent one: what is returned, every word of the answer, and
//! every byte that is lent.

#[path = "mend_compare/both.rs"]
mod both;
#[path = "mend_compare/edges.rs"]
mod edges;
#[path = "mend_compare/exact.rs"]
mod exact;
#[path = "compare/forge.rs"]
mod forge;
#[path = "mend_compare/gathered.rs"]
mod gathered;
#[path = "compare/hurt.rs"]
mod hurt;
#[path = "mend_compare/large.rs"]
mod large;
#[path = "mend_compare/lay.rs"]
mod lay;
#[path = "compare/lent.rs"]
mod lent;
#[path = "mend_compare/logs.rs"]
mod logs;
// A part of it.
#[allow(dead_code)]
#[path = "compare/made.rs"]
mod made;
// A part of it.
#[allow(dead_code)]
#[path = "compare/make.rs"]
mod make;
#[path = "compare/mixed.rs"]
mod mixed;
#[path = "compare/odd.rs"]
mod odd;
mod random;
#[path = "compare/starts.rs"]
mod starts;
#[path = "compare/trailers.rs"]
mod trailers;
// A part of it.
#[allow(dead_code)]
#[path = "feed_compare/words.rs"]
mod words;

use both::Both;
use made::{Dirty, Made, Several};

/// Compares on one kind of inputs, so many calls at least.
fn compare(part: fn(&mut Both), at_least: usize) -> Made {
    let mut both = Both::new();
    // Shown where the test fails.
    println!("{}", both.random);
    part(&mut both);
    let calls = both.made.calls;
    println!("{calls} calls compared");
    assert!(calls >= at_least, "only {calls} calls compared");
    both.made
}

#[test]
fn on_journals_whole_and_cut() {
    compare(logs::written, 500);
}

#[test]
fn on_journals_damaged() {
    compare(logs::damaged, 1_000)
        .has_met(15, 8)
        .has_met_dirty(Dirty {
            all: 1,
            ..Dirty::default()
        });
}

#[test]
fn on_random_bytes() {
    compare(logs::random, 1_000);
}

#[test]
fn on_fragments_as_no_writer_puts_them() {
    compare(logs::odd, 10_000)
        .has_met(1_000, 600)
        .has_met_dirty(Dirty {
            all: 40,
            open: 15,
            open_and_empty: 8,
            ..Dirty::default()
        });
}

#[test]
fn on_empty_starts() {
    compare(logs::starts, 1_000)
        .has_met(60, 50)
        .has_met_dirty(Dirty {
            all: 20,
            open: 10,
            open_and_empty: 3,
            ..Dirty::default()
        });
}

#[test]
fn on_dirty_trailers() {
    compare(logs::trailers, 1_000).has_met_dirty(Dirty {
        all: 60,
        open: 25,
        open_and_empty: 10,
        cut: 5,
        ..Dirty::default()
    });
}

#[test]
fn on_what_gathering_leaves_in_the_buffer() {
    compare(gathered::all, 10_000)
        .has_met(250, 400)
        .has_met_dirty(Dirty {
            all: 15,
            open: 12,
            ..Dirty::default()
        })
        .has_met_several(Several {
            all: 4_000,
            short: 4_000,
            empty: 900,
            trailers: 30,
            after_broken: 200,
        });
}

#[test]
fn on_slices_that_just_fit() {
    compare(exact::all, 2_000).has_met_dirty(Dirty {
        all: 30,
        open: 10,
        cut: 20,
        ..Dirty::default()
    });
}

#[test]
fn on_every_condition() {
    compare(edges::all, 1_200);
}

#[test]
fn on_large_logs() {
    compare(large::all, 9);
}
