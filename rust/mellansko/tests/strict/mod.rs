//! The strict way as the reference has it, and the crate's in the same types.

use crate::expected::{next_of, refused};
use mellansko::{Next, NotWhole};
use reference::log;
use std::borrow::Cow;

/// All records, or all that is in doubt: skips in order, without empty starts, and then a torn end; or
/// the refusal.
pub type Strict = Result<Vec<Vec<u8>>, Vec<log::Next>>;

/// Of the reference's answers, each with a record's bytes.
pub fn of_answers(answers: &[(log::Next, Vec<u8>)]) -> Strict {
    let (mut records, mut doubts) = (Vec::new(), Vec::new());
    for (answer, bytes) in answers {
        match answer {
            log::Next::Record { .. } => records.push(bytes.clone()),
            log::Next::End(log::Tail::Clean) => {}
            // Nothing is in doubt there (docs/FORMAT.md, §13.5).
            log::Next::Skip { reason: 8, .. } => {}
            _ => doubts.push(*answer),
        }
    }
    if doubts.is_empty() {
        Ok(records)
    } else {
        Err(doubts)
    }
}

/// Of the crate's.
pub fn of(given: Result<Vec<Cow<[u8]>>, NotWhole>) -> Strict {
    match given {
        Ok(records) => Ok(records.into_iter().map(Cow::into_owned).collect()),
        Err(NotWhole::Refused(refusal)) => Err(vec![refused(refusal)]),
        Err(NotWhole::InDoubt(doubt)) => {
            let skips = doubt.skips.into_iter().map(Next::Skip);
            let answers = skips.chain([Next::End(doubt.tail)]).map(next_of);
            let clean = log::Next::End(log::Tail::Clean);
            Err(answers.filter(|answer| *answer != clean).collect())
        }
    }
}
