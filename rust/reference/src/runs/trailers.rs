//! Runs over trailers of each length: of zeros, and dirty in each byte (reason 9), with a record
//! open, with nothing open, and with an empty record open. An append's fragments fill their block,
//! so a trailer inside a record is put by hand.

use super::Run;
use crate::log::{FIRST, FULL, LAST, MIDDLE};

/// What the program `run_trailers` writes: a scenario for each length.
pub fn listing() -> String {
    let mut run = Run::new();
    let titles = [
        "1 byte of trailer",
        "2 bytes of trailer",
        "3 bytes of trailer",
        "4 bytes of trailer",
        "5 bytes of trailer",
        "6 bytes of trailer",
    ];
    for (bytes, title) in (1..).zip(titles) {
        run.scenario(title);
        held_open(&mut run, bytes);
        nothing_open(&mut run, bytes);
        empty_open(&mut run, bytes);
        from_inside(&mut run, bytes);
        appended_over(&mut run, bytes);
        run.sums(262_144);
    }
    run.lines
}

/// A record from 0 to 65643, with two trailers inside.
fn held_open(run: &mut Run, bytes: usize) {
    run.fragment(0, FIRST, 1, 32_761 - bytes);
    run.zeros(32_768 - bytes, bytes);
    run.fragment(32_768, MIDDLE, 2, 32_761 - bytes);
    run.zeros(65_536 - bytes, bytes);
    run.fragment(65_536, LAST, 3, 100);
    run.read(65_643, 262_144);
    cuts(run, bytes);
    each_byte_dirty(run, bytes, 65_643);
}

/// The log cut where the first trailer starts, before its last byte, after it, and before the
/// second one's last byte.
fn cuts(run: &mut Run, bytes: usize) {
    run.read(32_768 - bytes, 262_144);
    run.read(32_767, 262_144);
    run.read(32_768, 262_144);
    run.read(65_535, 262_144);
}

/// Each byte of the first trailer changed in turn, and then put back: all of the log, cut right
/// after that byte, and cut right before it.
fn each_byte_dirty(run: &mut Run, bytes: usize, log: usize) {
    for place in 32_768 - bytes..32_768 {
        run.change(place, 1);
        run.read(log, 262_144);
        run.read(place + 1, 262_144);
        run.read(place, 262_144);
        run.change(place, 1);
    }
}

/// A record up to the first trailer, and one after it.
fn nothing_open(run: &mut Run, bytes: usize) {
    run.fragment(0, FULL, 4, 32_761 - bytes);
    run.fragment(32_768, FULL, 5, 100);
    each_byte_dirty(run, bytes, 32_875);
}

/// The same with an empty FIRST right before the trailer: what interrupts it there is no FULL or
/// FIRST, so it is no empty start (§14.3).
fn empty_open(run: &mut Run, bytes: usize) {
    run.fragment(0, FULL, 6, 32_754 - bytes);
    run.fragment(32_761 - bytes, FIRST, 7, 0);
    each_byte_dirty(run, bytes, 32_875);
}

/// Calls at a dirty trailer's first byte, which is the one that is not zero, and at the next place.
fn from_inside(run: &mut Run, bytes: usize) {
    run.change(32_768 - bytes, 1);
    run.next(32_875, 32_768 - bytes, 100, 100);
    run.next(32_875, 32_769 - bytes, 100, 100);
}

/// A trailer that holds what the log is filled with, which is no zeros, until an append fills it.
fn appended_over(run: &mut Run, bytes: usize) {
    run.append(98_321, 98_304 - bytes, 4, 10);
    run.next(98_321, 98_304 - bytes, 100, 100);
}
