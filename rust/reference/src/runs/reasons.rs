//! Runs over the reasons for a skip, 1 to 8, with the limits at 7, over the asking for bytes, and
//! over what is counted of a record after an interrupted one. Reason 9 has a listing of its own,
//! `trailers`. Each place is written out, so that a step can be checked by hand.

use super::Run;
use crate::log::{FIRST, FULL, LAST, MIDDLE};

/// What the program `run_reasons` writes.
pub fn listing() -> String {
    let mut run = Run::new();
    bad_length(&mut run);
    blank(&mut run);
    checksum(&mut run);
    nothing_open(&mut run);
    record_open(&mut run);
    empty_start(&mut run);
    empty_interrupted(&mut run);
    over_the_limit(&mut run);
    bytes_asked_for(&mut run);
    interrupted_with_its_fragments(&mut run);
    run.lines
}

fn bad_length(run: &mut Run) {
    run.scenario("reason 1, bad length by one, with a record open");
    run.fragment(0, FIRST, 1, 5);
    run.fragment(12, LAST, 2, 32_749);
    run.append(32_780, 32_768, 3, 5);
    // The length becomes 32750.
    run.change(16, 0x03);
    run.read(32_780, 262_144);
    run.sums(32_780);
}

fn blank(run: &mut Run) {
    run.scenario("reason 2, blank though the checksum is right, with a record open");
    run.fragment(0, FIRST, 1, 5);
    run.fragment(12, 0, 2, 0);
    run.read(40, 100);
    run.sums(40);
}

fn checksum(run: &mut Run) {
    run.scenario("reason 3, checksum, with a record open and a sound fragment after");
    run.fragment(0, FIRST, 1, 5);
    run.fragment(12, LAST, 2, 5);
    run.fragment(24, FULL, 3, 5);
    run.change(20, 1);
    run.read(36, 100);
    run.sums(36);
}

fn nothing_open(run: &mut Run) {
    run.scenario("reasons 5 and 6: FULL, MIDDLE, LAST, types 5 and 0, and FIRST with nothing open");
    run.fragment(0, FULL, 1, 5);
    run.fragment(12, MIDDLE, 2, 5);
    run.fragment(24, LAST, 3, 5);
    run.fragment(36, 5, 4, 5);
    run.fragment(48, 0, 5, 5);
    run.fragment(60, FIRST, 6, 5);
    run.read(72, 100);
    run.sums(72);
}

fn record_open(run: &mut Run) {
    run.scenario("reason 4: FULL, FIRST, MIDDLE, LAST and type 5 with a record open");
    run.fragment(0, FIRST, 1, 5);
    run.fragment(12, FULL, 2, 5);
    run.fragment(24, FIRST, 3, 5);
    run.fragment(36, FIRST, 4, 5);
    run.fragment(48, MIDDLE, 5, 5);
    run.fragment(60, LAST, 6, 5);
    run.fragment(72, FIRST, 7, 5);
    run.fragment(84, 5, 8, 5);
    run.read(96, 100);
    run.sums(96);
}

fn empty_start(run: &mut Run) {
    run.scenario(
        "reason 8, empty start, as an early LevelDB writer left it: \
         afresh with FULL, and with FIRST",
    );
    run.fragment(0, FULL, 1, 32_754);
    run.fragment(32_761, FIRST, 2, 0);
    run.fragment(32_768, FULL, 2, 1_000);
    run.fragment(33_775, FULL, 3, 31_747);
    run.fragment(65_529, FIRST, 4, 0);
    run.fragment(65_536, FIRST, 4, 32_761);
    run.fragment(98_304, LAST, 5, 7_239);
    run.read(105_550, 262_144);
    run.sums(105_550);
}

fn empty_interrupted(run: &mut Run) {
    run.scenario(
        "reasons 8 and 4 by what interrupts: FULL after an empty MIDDLE, type 5, \
         FULL after a MIDDLE with bytes, a changed FULL",
    );
    run.fragment(0, FIRST, 1, 0);
    run.fragment(7, MIDDLE, 2, 0);
    run.fragment(14, FULL, 3, 5);
    run.fragment(26, FIRST, 4, 0);
    run.fragment(33, 5, 5, 5);
    run.fragment(45, FIRST, 6, 0);
    run.fragment(52, MIDDLE, 7, 5);
    run.fragment(64, FULL, 8, 5);
    run.fragment(76, FIRST, 9, 0);
    run.fragment(83, FULL, 10, 5);
    run.change(90, 1);
    run.read(95, 100);
    run.sums(95);
}

fn over_the_limit(run: &mut Run) {
    run.scenario(
        "reason 7: limits at and one below a length, whole, gathered, and of FIRST and MIDDLE",
    );
    run.fragment(0, FULL, 1, 100);
    run.fragment(107, FIRST, 2, 50);
    run.fragment(164, MIDDLE, 3, 30);
    run.fragment(201, LAST, 4, 20);
    run.next(228, 0, 100, 100);
    run.next(228, 0, 99, 99);
    run.next(228, 107, 100, 100);
    run.next(228, 107, 99, 99);
    run.next(228, 107, 79, 79);
    run.next(228, 107, 49, 49);
    run.sums(228);
}

fn bytes_asked_for(run: &mut Run) {
    run.scenario("the bytes asked for, in slices just long enough and one too short");
    run.fragment(0, FULL, 1, 10);
    run.fragment(17, FIRST, 2, 10);
    run.fragment(34, LAST, 3, 10);
    run.fragment(51, MIDDLE, 4, 10);
    let whole = run.next(68, 0, 100, 100);
    let gathered = run.next(68, 17, 100, 100);
    let skip = run.next(68, 51, 100, 100);
    run.bytes(68, 100, skip);
    run.bytes(17, 0, whole);
    run.bytes(16, 100, whole);
    // After the skip the buffer still has the bytes.
    run.bytes(0, 20, gathered);
    run.bytes(68, 19, gathered);
    run.sums(68);
}

/// What is answered after the interrupted one has two fragments of its own, and not four (§16.2).
fn interrupted_with_its_fragments(run: &mut Run) {
    run.scenario("an interrupted record takes its fragments with it");
    run.fragment(0, FIRST, 1, 5);
    run.fragment(12, MIDDLE, 2, 3);
    run.fragment(22, FIRST, 3, 4);
    run.fragment(33, LAST, 4, 2);
    run.read(42, 100);
    run.sums(42);
}
