//! Readings of a whole log (§4.12), in the form that the fed reader's answers have.

use crate::log::{next, Next, Stored};

/// The answers of a whole log, the end among them. Every record is called gathered (§11.10).
pub fn reading(log: &[u8], limit: usize) -> Vec<Next> {
    let mut buffer = vec![0; limit];
    let mut answers = Vec::new();
    let mut place = 0;
    loop {
        let answer = next(log, place, limit, &mut buffer);
        assert!(
            !matches!(answer, Next::Refused { .. }),
            "no log to read: {answer:?}"
        );
        answers.push(gathered(answer));
        if matches!(answer, Next::End(_)) {
            return answers;
        }
        place = answer.place_after(log);
    }
}

/// The same answer; a record that is whole becomes a gathered one.
fn gathered(mut answer: Next) -> Next {
    if let Next::Record { stored, .. } = &mut answer {
        *stored = Stored::Gathered;
    }
    answer
}
