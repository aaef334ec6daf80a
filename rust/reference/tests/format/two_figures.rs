//! The two figures of §15: where the page says them, and what it says of their edges. They are
//! written as numbers here, so that a wrong one in the code is noticed. The logs are zeros, which
//! take no memory until they are touched.

use super::{append, fed, fed_as_told, grouped, line, mend, mended, next, part, rows, says, told};
use super::{Appended, Mended, Next, Tail, BLOCK};
use reference::feed::{begin, take, State};
use reference::log::{LONGEST_LOG, LONGEST_RECORD};

#[test]
fn in_their_own_words() {
    assert_eq!((LONGEST_RECORD, LONGEST_LOG), (4_194_304, 1_073_741_824));
    let text = part("§15.1", "**§15.2**");
    let blocks = |figure: usize| {
        assert_eq!(figure % BLOCK, 0);
        assert!(figure < 1 << 32);
        format!(
            "{}, which is {} blocks",
            grouped(figure),
            grouped(figure / BLOCK)
        )
    };
    says(
        &text,
        &format!(
            "a record has at most (§1.4), {}, and how many a log has at most (§1.6), {}.",
            blocks(4_194_304),
            blocks(1_073_741_824)
        ),
    );
}

/// Every rule that goes by them says the same ones.
#[test]
fn where_the_rules_say_them() {
    let (record, log) = ("4,194,304", "1,073,741,824");
    for (number, words) in [
        ("§1.4", format!("0 to {record} bytes, of any")),
        ("§1.6", format!("has at most {log} bytes.")),
        ("§5.1", format!("the log has more than {log} bytes |")),
        ("§5.1", format!("the record has more than {record} bytes |")),
        ("§5.1", format!("the limit is greater than {record} |")),
        ("§7.2", format!("any limit up to {record} that no")),
        ("§11.3", format!("the limit is at most {record}, and")),
        ("§11.3", format!("at most {log} bytes have come;")),
        ("§11.11", format!("together are more than {log} bytes |")),
        ("§11.11", format!("the limit is greater than {record} |")),
        ("§12.5", format!("fresh slice, has more than {log} bytes |")),
        ("§12.5", format!("the limit is greater than {record} |")),
        ("§12.6", format!("has at most {log} bytes, makes")),
    ] {
        // Up to the next number.
        says(&part(number, "\n**§"), &words);
    }
}

/// The page has this row among those of §15.2.
fn stands(call: &str, given: &str, answer: &str) {
    let rows = rows("§15.2");
    assert_eq!(rows.len(), 8);
    let row = [call, given, answer].map(str::to_string).to_vec();
    assert!(rows.contains(&row), "the page has no row {row:?}");
}

fn refused(number: u8, given: usize) -> Appended {
    Appended::Refused { number, given }
}

fn not_read(number: u8, given: usize) -> Next {
    Next::Refused { number, given }
}

fn not_mended(number: u8) -> Mended {
    Mended::Refused { number, given: 0 }
}

#[test]
fn the_longest_record_in_a_log_that_it_fills() {
    stands(
        "append",
        "a record of 4,194,304 bytes, at mark 0 of a log of 4,195,207",
        "accepted, and the log is full: 129 fragments",
    );
    let record = vec![7; 4_194_304];
    let mut log = vec![0; 4_195_207];
    assert_eq!(append(&mut log[1..], 0, &record), refused(4, 0));
    assert_eq!(append(&mut log, 0, &record), Appended::Mark(4_195_207));
    // Each of them starts a block.
    let kinds: Vec<u8> = log.chunks(BLOCK).map(|block| block[6]).collect();
    assert_eq!(kinds.len(), 129);
    assert_eq!((kinds[0], kinds[128]), (2, 4));
    assert_eq!(kinds[1..128], [3; 127]);
    let whole = "record 0 to 4,195,207, gathered";
    assert_eq!(told(&log, 4_194_304), [whole, "end, clean"]);
    let over = "skipped 0 to 4,195,207, reason 7";
    assert_eq!(told(&log, 4_194_303), [over, "end, clean"]);
    fed_as_told(&log, 4_194_304, 100_000, &format!("{whole}; end, clean"));
    fed_as_told(&log, 4_194_303, 100_000, &format!("{over}; end, clean"));
}

#[test]
fn a_record_with_one_byte_more() {
    stands(
        "append",
        "a record of 4,194,305 bytes, in any log that is not refused with 1 or 2",
        "refusal 3",
    );
    let record = vec![7; 4_194_305];
    let mut log = vec![0; 1_073_741_825];
    for length in [0, 100, 5_000_000, 1_073_741_824] {
        for mark in [0, length / 2, length] {
            assert_eq!(append(&mut log[..length], mark, &record), refused(3, mark));
        }
        let mark = length + 1;
        assert_eq!(append(&mut log[..length], mark, &record), refused(2, mark));
    }
    assert_eq!(append(&mut log, 0, &record), refused(1, 0));
}

#[test]
fn the_last_bytes_of_the_longest_log() {
    let given = "at mark 1,073,741,724 of a log of 1,073,741,824 bytes, a record of 93 bytes";
    stands("append", given, "accepted, new mark 1,073,741,824");
    stands("append", "the same, a record of 94 bytes", "refusal 4");
    let mut log = vec![0; 1_073_741_824];
    let mark = 1_073_741_724;
    assert_eq!(append(&mut log, mark, &[7; 94]), refused(4, mark));
    assert_eq!(log[mark..], [0; 100]);
    let end = 1_073_741_824;
    assert_eq!(append(&mut log, mark, &[7; 93]), Appended::Mark(end));
    assert_eq!(append(&mut log, end, &[]), refused(4, end));
    assert_eq!(append(&mut log, end + 1, &[]), refused(2, end + 1));
    let answer = next(&log, mark, 93, &mut [0; 93]);
    assert_eq!(
        line(answer),
        "record 1,073,741,724 to 1,073,741,824, whole from 1,073,741,731"
    );
    let answer = next(&log, end, 93, &mut [0; 93]);
    assert_eq!(answer, Next::End(Tail::Clean));
    assert_eq!(next(&log, end + 1, 93, &mut [0; 93]), not_read(2, end + 1));
}

#[test]
fn a_log_with_one_byte_more() {
    stands(
        "append, next, mend",
        "a log of 1,073,741,825 bytes; of mend, also such a fresh slice",
        "refusal 1",
    );
    let mut long = vec![0; 1_073_741_825];
    for place in [0, 1_073_741_825, 1_073_741_826] {
        assert_eq!(append(&mut long, place, &[]), refused(1, place));
        assert_eq!(next(&long, place, 9, &mut [0; 9]), not_read(1, place));
    }
    assert_eq!(mend(&long, &mut [], 9, &mut [0; 9]), not_mended(1));
    assert_eq!(mend(&[], &mut long, 9, &mut [0; 9]), not_mended(1));
    // And with that byte less.
    let log = &mut long[..1_073_741_824];
    let nothing = Mended::Log {
        length: 0,
        skipped: 0,
    };
    assert_eq!(mend(&[], log, 9, &mut [0; 9]), nothing);
    assert_eq!(append(log, 0, &[]), Appended::Mark(7));
    let answer = next(log, 0, 9, &mut [0; 9]);
    assert_eq!(line(answer), "record 0 to 7, whole from 7");
}

#[test]
fn the_highest_limit_and_one_more() {
    stands(
        "next, begin, mend",
        "a limit of 4,194,305",
        "refusal 5, unless 1 or 2 is given",
    );
    let long = vec![0; 1_073_741_825];
    let mut buffer = vec![0; 4_194_305];
    assert_eq!(next(&[], 0, 4_194_305, &mut buffer), not_read(5, 0));
    assert_eq!(next(&[], 0, 4_194_305, &mut []), not_read(5, 0));
    assert_eq!(next(&[], 1, 4_194_305, &mut buffer), not_read(2, 1));
    assert_eq!(next(&long, 1, 4_194_305, &mut buffer), not_read(1, 1));
    assert_eq!(begin(4_194_305), Err(5));
    assert_eq!(mend(&[], &mut [], 4_194_305, &mut buffer), not_mended(5));
    assert_eq!(mend(&[], &mut [], 4_194_305, &mut []), not_mended(5));
    assert_eq!(mend(&long, &mut [], 4_194_305, &mut buffer), not_mended(1));
    // And with one less.
    let limit = 4_194_304;
    let clean = Next::End(Tail::Clean);
    assert_eq!(next(&[], 0, limit, &mut buffer[1..]), clean);
    assert_eq!(next(&[], 0, limit, &mut buffer[2..]), not_read(6, 0));
    assert_eq!(begin(4_194_304).map(|state| state.limit), Ok(4_194_304));
    assert_eq!(mended(&[], 0, limit).1, "length 0, skipped 0");
    let short = &mut buffer[2..];
    assert_eq!(mend(&[], &mut [], limit, short), not_mended(6));
}

/// A state that has come so far, with nothing open.
fn come(came: u64) -> State {
    State {
        place: came,
        came,
        ..begin(100).expect("a limit")
    }
}

#[test]
fn pieces_up_to_the_longest_log_and_one_byte_more() {
    let given = "a piece with which 1,073,741,824 bytes will have come";
    stands("take", given, "not refusal 1");
    let more = "a piece with which one byte more will have come";
    stands("take", more, "refusal 1");
    let zeros = vec![0; 1_073_741_825];
    let block = &mut [0; BLOCK];
    for (came, piece, taken) in [
        (0, 1_073_741_824, 32_768),
        (1, 1_073_741_823, 32_767),
        (32_768, 1_073_709_056, 32_768),
        (1_073_709_055, 32_769, 1),
        (1_073_709_056, 32_768, 32_768),
        (1_073_741_724, 100, 100),
        (1_073_741_823, 1, 1),
        (1_073_741_824, 0, 0),
    ] {
        let [mut state, before] = [come(came); 2];
        assert_eq!(take(&mut state, block, &zeros[..piece + 1]), Err(1));
        assert_eq!(state, before);
        assert_eq!(take(&mut state, block, &zeros[..piece]), Ok(taken));
        assert_eq!(state.came, came + taken as u64);
    }
}

/// What is told of as many zeros as a log may have: each block, and the end.
fn blocks_of_zeros() -> Vec<String> {
    let skipped = (0..32_768).map(|block| {
        let [start, end] = [block, block + 1].map(|block| grouped(block * 32_768));
        format!("skipped {start} to {end}, reason 2")
    });
    let due: Vec<String> = skipped.chain(["end, clean".to_string()]).collect();
    assert_eq!(
        due[32_767],
        "skipped 1,073,709,056 to 1,073,741,824, reason 2"
    );
    due
}

#[test]
fn as_many_zeros_as_there_may_be() {
    says(
        &part("§15.2", "**§15.3**"),
        "A log of 1,073,741,824 zeros, read at any limit that is not refused, gives 32,768 \
         skipped ranges of reason 2, one for each block, and a clean end.",
    );
    let due = blocks_of_zeros();
    let log = vec![0; 1_073_741_824];
    for limit in [0, 100, 4_194_304] {
        assert!(told(&log, limit) == due, "at limit {limit}");
        let (_, answer) = mended(&log, 0, limit);
        assert_eq!(answer, "length 0, skipped 1,073,741,824");
    }
}

/// The same, fed: in pieces of less than a block, of more, and all at once.
#[test]
fn as_many_zeros_in_pieces() {
    let due = blocks_of_zeros();
    let log = vec![0; 1_073_741_824];
    for (limit, length) in [(0, 30_000), (4_194_304, 1_000_000), (100, 1_073_741_824)] {
        let answers = fed(&log, limit, length);
        assert_eq!(answers.len(), due.len());
        for (block, ((answer, came), due)) in answers.iter().zip(&due).enumerate() {
            assert_eq!(answer, due);
            assert_eq!(*came, ((block + 1) * 32_768).min(1_073_741_824));
        }
    }
}
