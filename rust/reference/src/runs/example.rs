//! The example of the log format's text, whole, cut and changed: the format's "Run and compared".

use super::Run;

/// What the program `run_example` writes.
pub fn listing() -> String {
    let mut run = Run::new();

    run.scenario("the example, whole");
    example(&mut run);
    run.read(106_311, 262_144);
    run.sums(106_311);

    run.scenario("cut at 106310, inside the third record");
    example(&mut run);
    run.read(106_310, 262_144);
    run.sums(106_310);

    run.scenario("cut at 98300, in the trailer after the second record");
    example(&mut run);
    run.read(98_300, 262_144);
    run.sums(98_300);

    run.scenario("byte 40000 changed by xor with 1");
    example(&mut run);
    run.change(40_000, 1);
    run.read(106_311, 262_144);
    run.sums(106_311);

    run.lines
}

/// The example's log, whole.
pub fn log() -> Vec<u8> {
    let mut run = Run::new();
    example(&mut run);
    run.log.truncate(106_311);
    run.log
}

/// Rows 1 to 3 of the table M, in turn.
fn example(run: &mut Run) {
    run.append(106_311, 0, 1, 1_000);
    run.append(106_311, 1_007, 2, 97_270);
    run.append(106_311, 98_298, 3, 8_000);
}
