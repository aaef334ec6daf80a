//! Empty starts of records: ranges that are skipped, and that count as no loss.

use crate::words::{bytes, count, range};
use mellansko::Skip;

/// How many there are, and the first of them: of a journal that is made to have them there are
/// millions.
#[derive(Default, PartialEq, Eq)]
pub struct EmptyStarts {
    number: usize,
    bytes: usize,
    first: Option<Skip>,
}

impl EmptyStarts {
    pub fn add(&mut self, skip: Skip) {
        self.number += 1;
        self.bytes += skip.end - skip.start;
        self.first.get_or_insert(skip);
    }

    pub fn are_none(&self) -> bool {
        self.number == 0
    }

    /// All that is said of them, if there are any. Who wrote them nobody can tell, and a block that
    /// was left out may leave one too.
    pub fn line(&self) -> Option<String> {
        let Skip { start, end, reason } = self.first?;
        let number = count(self.number, "empty start", "empty starts");
        let place = range(start, end);
        let (what, list) = match self.number {
            1 => (format!("{place}: a record was begun there"), ""),
            _ => (
                format!(
                    "{} in all; the first is {place}. In each a record was begun",
                    bytes(self.bytes)
                ),
                " The command dump lists each.",
            ),
        };
        Some(format!(
            "{number}, {what} with no bytes, and then begun again. Early LevelDB writers did so at \
             the ends of blocks; as far as a reader can tell, nothing is lost (reason {}, {}).{list}",
            reason.number(),
            reason.name()
        ))
    }
}
