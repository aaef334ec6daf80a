//! Readings of whole logs (§4.12).

use crate::walk::one_exactly_if_whole;
use reference::log::{next, Next};

/// The answers from place 0 to the end, at a limit that is not refused.
pub fn reading(log: &[u8], limit: usize) -> Vec<Next> {
    let mut buffer = vec![0; limit];
    let (mut place, mut answers) = (0, Vec::new());
    while !matches!(answers.last(), Some(Next::End(_))) {
        let answer = next(log, place, limit, &mut buffer);
        let refused = matches!(answer, Next::Refused { .. });
        assert!(!refused, "{answer:?} of a reading");
        one_exactly_if_whole(&answer);
        place = answer.place_after(log);
        answers.push(answer);
    }
    answers
}

/// The records among them.
pub fn records(answers: &[Next]) -> Vec<Next> {
    let record = |answer: &&Next| matches!(answer, Next::Record { .. });
    answers.iter().filter(record).copied().collect()
}
