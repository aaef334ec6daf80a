//! Runs at the edges of the format's rules: sizes, refusals, block ends, and a log inside a record.
//! Each place is written out, so that a step can be checked by hand.

use super::Run;

/// What the program `run_edges` writes.
pub fn listing() -> String {
    let mut run = Run::new();
    longest_record(&mut run);
    refused_appends(&mut run);
    refused_readings(&mut run);
    block_ends(&mut run);
    empty_records(&mut run);
    log_inside_a_record(&mut run);
    run.lines
}

/// A log that has room for the longest record is too long for a run, so the one is told from the
/// other by the number of its refusal.
fn longest_record(run: &mut Run) {
    run.scenario("the longest record and one byte more, with no room for either");
    // 4; then 3 and 4.
    run.append_zeros(262_144, 0, 4_194_304);
    run.append_zeros(262_144, 0, 4_194_305);
    // 2, 3 and 4 all hold; then 3 and 4.
    run.append_zeros(100, 101, 4_194_305);
    run.append_zeros(100, 100, 4_194_305);
    run.sums(262_144);
}

fn refused_appends(run: &mut Run) {
    run.scenario("refused appends, each with its neighbour that is not");
    // 2. The neighbour has no room even for an empty record, and the one before it has.
    run.append(100, 101, 1, 0);
    run.append(100, 100, 1, 0);
    run.append(100, 93, 1, 0);
    // 4, by one byte, also where a trailer is a part of the size. 3 is in the scenario above.
    run.append(1_006, 0, 2, 1_000);
    run.append(1_007, 0, 2, 1_000);
    run.append(32_774, 32_762, 3, 0);
    run.append(32_775, 32_762, 3, 0);
    run.sums(32_775);
}

fn refused_readings(run: &mut Run) {
    run.scenario("refused readings, each with its neighbour");
    run.append(17, 0, 1, 10);
    // 2.
    run.next(17, 18, 100, 100);
    run.next(17, 17, 100, 100);
    // 5. Its neighbour is refused as well, with 6: the buffer is shorter than the longest record.
    run.next(17, 0, 4_194_305, 262_144);
    run.next(17, 0, 4_194_304, 262_144);
    // 6.
    run.next(17, 0, 100, 99);
    run.next(17, 0, 100, 100);
    // 2, 5 and 6 all hold.
    run.next(17, 18, 4_194_305, 0);
    run.sums(17);
}

/// The first call of each pair is at a mark with so many bytes left in its block.
fn block_ends(run: &mut Run) {
    run.scenario("7, 6 and 0 bytes left in a block, an empty record and one of a byte");
    run.append(262_144, 32_761, 1, 0);
    run.next(262_144, 32_761, 100, 262_144);
    run.append(262_144, 65_529, 2, 1);
    run.next(262_144, 65_529, 100, 262_144);
    run.append(262_144, 98_298, 3, 0);
    run.next(262_144, 98_298, 100, 262_144);
    run.append(262_144, 131_066, 4, 1);
    run.next(262_144, 131_066, 100, 262_144);
    run.append(262_144, 163_840, 5, 0);
    run.next(262_144, 163_840, 100, 262_144);
    run.append(262_144, 196_608, 6, 1);
    run.next(262_144, 196_608, 100, 262_144);
    run.sums(262_144);
}

fn empty_records(run: &mut Run) {
    run.scenario("empty records in a row, with limit 0");
    run.append(21, 0, 1, 0);
    run.append(21, 7, 2, 0);
    run.append(21, 14, 3, 0);
    run.read(21, 0);
    run.sums(21);
}

fn log_inside_a_record(run: &mut Run) {
    run.scenario("a log inside a record, which stays one record, and damaged gives none");
    run.append(44, 0, 1, 10);
    run.append(44, 17, 2, 20);
    run.make_record_of_log(44);
    run.append_made(51, 0, 44);
    run.read(51, 100);
    // A byte of the outer fragment's checksum.
    run.change(0, 1);
    run.read(51, 100);
    run.sums(51);
}
