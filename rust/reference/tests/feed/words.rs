//! State and answers as ten words (§11.14), beside the plain ones.

use crate::make;
use crate::random::Random;
use reference::feed::{begin, begin_words, end, end_words, next, next_words, take, take_words};
use reference::feed::{words_of_told, State, Told};
use reference::log::{fragment, BLOCK, FIRST, FULL, LAST, LONGEST_LOG, MIDDLE};

#[test]
fn of_begin() {
    let begun = [24_576, 0, 0, 0, 0, 0, 0, 0, 0, 0];
    assert_eq!(begin_words(24_576), (Some(begun), [0; 10]));
    let refused = [1, 5, 0, 0, 0, 0, 0, 0, 0, 0];
    assert_eq!(begin_words(4_194_305), (None, refused));
}

/// A FULL, a FIRST that nothing follows, and the end. The last two words are the open record's
/// fragments and last header (§11.14).
#[test]
fn of_a_reading() {
    let log = [fragment(FULL, &[7; 5]), fragment(FIRST, &[8; 2])].concat();
    let (mut block, mut buffer) = ([0; BLOCK], [0; 9]);
    let mut state = begin_words(9).0.expect("begun");
    let taken = take_words(&mut state, &mut block, &log);
    assert_eq!(taken, [0, 21, 0, 0, 0, 0, 0, 0, 0, 0]);
    assert_eq!(state, [9, 0, 21, 0, 0, 0, 0, 0, 0, 0]);
    let record = next_words(&mut state, &block, &mut buffer);
    assert_eq!(record, [0, 0, 12, 5, 1, 0, 12, 1, 0, 0]);
    assert_eq!(state, [9, 12, 21, 0, 0, 0, 0, 0, 0, 0]);
    let not_yet = next_words(&mut state, &block, &mut buffer);
    assert_eq!(not_yet, [4, 0, 0, 0, 0, 0, 0, 0, 0, 0]);
    assert_eq!(state, [9, 21, 21, 0, 1, 12, 2, 0, 1, 12]);
    assert_eq!(buffer, [8, 8, 7, 7, 7, 0, 0, 0, 0]);
    end_words(&mut state);
    assert_eq!(state, [9, 21, 21, 1, 1, 12, 2, 0, 1, 12]);
    let torn = next_words(&mut state, &block, &mut buffer);
    assert_eq!(torn, [2, 1, 12, 0, 0, 0, 12, 0, 0, 0]);
    let after = take_words(&mut state, &mut block, &[]);
    assert_eq!(after, [1, 20, 0, 0, 0, 0, 0, 0, 0, 0]);
    let short = next_words(&mut state, &block, &mut buffer[..8]);
    assert_eq!(short, [3, 6, 0, 0, 0, 0, 0, 0, 0, 0]);
    state[7] = 3;
    let misfit = next_words(&mut state, &block, &mut buffer);
    assert_eq!(misfit, [3, 2, 0, 0, 0, 0, 0, 0, 0, 0]);
    assert_eq!(state, [9, 21, 21, 1, 1, 12, 2, 3, 1, 12]);
}

/// A record of three fragments, one word of the state after the other; and the words of the answer.
#[test]
fn of_a_record_in_fragments() {
    let parts = [(FIRST, 2), (MIDDLE, 0), (LAST, 3)];
    let parts = parts.map(|(kind, data)| fragment(kind, &vec![7; data]));
    let (mut block, mut buffer) = ([0; BLOCK], [0; 9]);
    let mut state = begin_words(9).0.expect("begun");
    let mut fed = |part: &[u8]| {
        take_words(&mut state, &mut block, part);
        let answer = next_words(&mut state, &block, &mut buffer);
        (answer, state)
    };
    let not_yet = [4, 0, 0, 0, 0, 0, 0, 0, 0, 0];
    let opened = [9, 9, 9, 0, 1, 0, 2, 0, 1, 0];
    assert_eq!(fed(&parts[0]), (not_yet, opened));
    let extended = [9, 16, 16, 0, 1, 0, 2, 0, 2, 9];
    assert_eq!(fed(&parts[1]), (not_yet, extended));
    let record = [0, 0, 26, 5, 1, 0, 26, 3, 16, 0];
    let closed = [9, 26, 26, 0, 0, 0, 0, 0, 0, 0];
    assert_eq!(fed(&parts[2]), (record, closed));
}

/// The last two words count like the others: no word is left for later.
#[test]
fn of_states_whose_last_words_do_not_fit() {
    for (fragments, last_header) in [(1, 0), (0, 1), (77, u64::MAX)] {
        let misfit = [9, 0, 0, 0, 0, 0, 0, 0, fragments, last_header];
        let (mut state, mut block) = (misfit, [0; BLOCK]);
        let refused = |kind| [kind, 2, 0, 0, 0, 0, 0, 0, 0, 0];
        assert_eq!(take_words(&mut state, &mut block, &[7]), refused(1));
        assert_eq!(next_words(&mut state, &block, &mut [0; 9]), refused(3));
        end_words(&mut state);
        assert_eq!(state, misfit);
    }
}

/// A bad fragment that waits, a skipped range, and a clean end, which goes on from what has come.
#[test]
fn of_a_skipped_range() {
    let (mut block, mut buffer) = ([0; BLOCK], [0; 9]);
    let mut state = begin_words(9).0.expect("begun");
    take_words(&mut state, &mut block, &[0; 8]);
    assert_eq!(next_words(&mut state, &block, &mut buffer)[0], 4);
    assert_eq!(state, [9, 0, 8, 0, 0, 0, 0, 2, 0, 0]);
    end_words(&mut state);
    let skipped = next_words(&mut state, &block, &mut buffer);
    assert_eq!(skipped, [1, 0, 8, 2, 0, 0, 8, 0, 0, 0]);
    let clean = next_words(&mut state, &block, &mut buffer);
    assert_eq!(clean, [2, 0, 0, 0, 0, 0, 8, 0, 0, 0]);
    assert_eq!(state, [9, 8, 8, 1, 0, 0, 0, 0, 0, 0]);
}

/// Both ways at once, on states that are made up as well.
#[test]
fn are_the_plain_numbers() {
    let random = &mut Random::new();
    println!("{random}");
    let (mut block, mut block_of_words) = ([0; BLOCK], [0; BLOCK]);
    for _ in 0..300 {
        let log = make::log(random, 60, 9);
        let mut plain = begin(20).expect("a limit");
        let mut words = begin_words(20).0.expect("a limit");
        let (mut buffer, mut buffer_of_words) = ([0; 20], [0; 20]);
        for _ in 0..40 {
            let most = log.len() - (plain.came as usize).min(log.len());
            let piece = &log[log.len() - most..][..random.below(most + 1)];
            match random.below(8) {
                0..=2 => {
                    let taken = take_words(&mut words, &mut block_of_words, piece);
                    let plainly = take(&mut plain, &mut block, piece);
                    let number = plainly.map_or_else(|number| number.into(), |taken| taken as u64);
                    assert_eq!(taken[..2], [u64::from(plainly.is_err()), number]);
                }
                3..=5 => {
                    let told = next(&mut plain, &block, &mut buffer);
                    let in_words = next_words(&mut words, &block_of_words, &mut buffer_of_words);
                    assert_eq!(in_words, words_of_told(told, plain.came));
                    assert_eq!(in_words[0] == 4, told == Told::NotYet);
                }
                6 if random.below(8) == 0 => {
                    end(&mut plain);
                    end_words(&mut words);
                }
                7 if random.below(4) == 0 => alter(random, &mut plain, &mut words),
                _ => {}
            }
            assert_eq!(numbers(&plain), words);
            assert!(block == block_of_words && buffer == buffer_of_words);
        }
    }
}

/// In the order of §11.2.
fn numbers(state: &State) -> [u64; 10] {
    let mut state = *state;
    each(&mut state).map(|number| *number)
}

fn each(state: &mut State) -> [&mut u64; 10] {
    [
        &mut state.limit,
        &mut state.place,
        &mut state.came,
        &mut state.over,
        &mut state.opened,
        &mut state.start,
        &mut state.length,
        &mut state.bad,
        &mut state.fragments,
        &mut state.last_header,
    ]
}

/// One number is made up.
fn alter(random: &mut Random, plain: &mut State, words: &mut [u64; 10]) {
    let number = make::pick(random, &[0, 1, 2, 3, 7, 20, LONGEST_LOG as u64, u64::MAX]);
    let which = random.below(words.len());
    words[which] = number;
    *each(plain)[which] = number;
}
