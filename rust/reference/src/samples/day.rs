//! The day, from the morning's entries to the result sheets.

use super::factors;
use super::generator::Generator;
use super::journal::Journal;
use super::racers::{self, Racer};
use super::results::{sheet, Total};
use super::run::{Descent, Run};

const FIRST: Run = Run {
    number: 1,
    first_start: 10 * 3_600_000,
};

const SECOND: Run = Run {
    number: 2,
    first_start: 13 * 3_600_000,
};

/// What a record of the clocks begins with. Its figures go on for as long as nothing else happens.
const CLOCKS: &str =
    "clocks, start against finish, in ten-thousandths of a second, one figure a second: ";

/// What the generator of the day starts from.
const SEED: u64 = 20_270_206;

pub fn journal() -> Journal {
    let mut generator = Generator::new(SEED);
    let mut journal = Journal::new();
    let racers = racers::all();
    morning(&mut journal, &racers, &mut generator);
    journal.write(factors::of_this_season());

    let starters: Vec<&Racer> = racers.iter().collect();
    let (records, first) = race(&FIRST, &starters, &mut generator);
    journal.write_all(records);
    // Exactly a header's bytes are left in the block: the next record has an empty FIRST there.
    journal.write_up_to(7, CLOCKS, || generator.below(4));

    let starters = second_starters(&first);
    let (records, second) = race(&SECOND, &starters, &mut generator);
    journal.write_all(records);
    // No header fits into what is left: the next record starts after a trailer.
    journal.write_up_to(4, CLOCKS, || generator.below(4));

    evening(&mut journal, &first, &second);
    journal.close()
}

/// The same day up to the end of the first run, as an early LevelDB writer would have left it: at two
/// places exactly a header's bytes are left, and what comes next begins afresh.
pub fn old_writer() -> Journal {
    let mut generator = Generator::new(SEED);
    // One of their own for the clocks, so that the times are those of the day.
    let mut clocks = Generator::new(SEED + 1);
    let mut journal = Journal::new();
    let racers = racers::all();
    morning(&mut journal, &racers, &mut generator);
    journal.write_up_to(7, CLOCKS, || clocks.below(4));
    // Longer than a block: afresh with a FIRST.
    journal.write_afresh(factors::of_this_season());

    let starters: Vec<&Racer> = racers.iter().collect();
    let (records, _) = race(&FIRST, &starters, &mut generator);
    for record in records {
        if journal.left() < 250 {
            // The clocks' last minutes, and then what is shorter than a block: afresh with a FULL.
            journal.write_up_to(7, CLOCKS, || clocks.below(4));
            journal.write_afresh(record);
        } else {
            journal.write(record);
        }
    }
    journal.write("journal closed, 2027-02-06, the second run is in another one".to_string());
    journal.close()
}

/// The first records, up to the last entry.
fn morning(journal: &mut Journal, racers: &[Racer], generator: &mut Generator) {
    journal.write("journal opened, 2027-02-06, Kvistliden, giant slalom in two runs".to_string());
    journal.write(factors::of_last_season());
    for racer in racers {
        journal.write(racer.entry(generator));
    }
}

/// The records of a run's start list and of what happened, and the descents.
fn race<'a>(
    run: &Run,
    starters: &[&'a Racer],
    generator: &mut Generator,
) -> (Vec<String>, Vec<Descent<'a>>) {
    let mut records = vec![run.start_list(starters)];
    let descents = run.descents(starters, generator);
    records.extend(run.records(&descents));
    (records, descents)
}

/// Those who finished the first run, in reverse order of the times that count.
fn second_starters<'a>(first: &[Descent<'a>]) -> Vec<&'a Racer> {
    let counts = |descent: &Descent<'a>| {
        let racer = descent.racer;
        Some((racer.class.factor().times(descent.taken?), racer))
    };
    let mut finished: Vec<(u64, &Racer)> = first.iter().filter_map(counts).collect();
    finished.sort_by_key(|&(counts, _)| std::cmp::Reverse(counts));
    finished.into_iter().map(|(_, racer)| racer).collect()
}

/// Writes the women's sheet and the men's.
fn evening(journal: &mut Journal, first: &[Descent], second: &[Descent]) {
    let totals = totals(first, second);
    for (title, women) in [("the women", true), ("the men", false)] {
        let theirs = |total: &&Total| total.racer.is_woman == women;
        journal.write(sheet(title, totals.iter().filter(theirs).collect()));
    }
    journal.write("journal closed, 2027-02-06".to_string());
}

/// Those who finished both runs.
fn totals<'a>(first: &[Descent<'a>], second: &[Descent<'a>]) -> Vec<Total<'a>> {
    let total = |descent: &Descent<'a>| {
        let racer = descent.racer;
        let before = first.iter().find(|first| first.racer.bib == racer.bib)?;
        let taken = [before.taken?, descent.taken?];
        Some(Total { racer, taken })
    };
    second.iter().filter_map(total).collect()
}
