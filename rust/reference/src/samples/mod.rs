//! A race day, and four journals of it: whole, torn, damaged, and as an old writer would have left
//! it. They are files of the folder `samples/` at the repository's root. Racers, clubs, places and
//! factors are invented, and a fixed generator makes the times, so that every run makes the same
//! bytes.
//!
//! This crate writes them and not the proved one, so that whoever reads them with the proved one
//! compares two programs.

mod day;
mod factors;
mod generator;
mod journal;
mod racers;
mod results;
mod run;
mod times;

pub use journal::Journal;

use crate::log::BLOCK;

/// The whole day.
pub fn clean() -> Journal {
    day::journal()
}

/// The day up to its last finish, whose record the laptop's battery did not last for.
pub fn torn() -> Vec<u8> {
    let day = clean();
    let (_, end) = day.span(last_finish(&day));
    day.log[..end - 10].to_vec()
}

/// Which record is the last finish.
pub fn last_finish(day: &Journal) -> usize {
    let is_finish = |record: &String| record.starts_with("finish");
    let last = day.records.iter().rposition(is_finish);
    last.expect("racers who finish")
}

/// The day with two digits of a factor swapped, in the second block. All that lies in it is the middle
/// part of this season's factors.
pub fn damaged() -> Vec<u8> {
    let mut log = clean().log;
    let row = b"LW10-1 in giant slalom, factor 0.9";
    let rows = log[BLOCK..2 * BLOCK].windows(row.len());
    let place = BLOCK + rows.take_while(|bytes| bytes != row).count() + row.len();
    let digits = &mut log[place..place + 2];
    assert_ne!(digits[0], digits[1], "digits that can be told apart");
    digits.swap(0, 1);
    log
}

/// The day up to the end of the first run, as an early LevelDB writer would have left it.
pub fn old_writer() -> Journal {
    day::old_writer()
}

/// What LevelDB puts into a database for `samples/leveldb.log`: the day's factors, and what follows
/// them up to the end of the first run.
pub fn puts() -> Vec<String> {
    let is_of = |record: &String| {
        let first_run = record.contains(", run 1,") || record.starts_with("start list of run 1");
        first_run || record.starts_with("factors")
    };
    clean().records.into_iter().filter(is_of).collect()
}
