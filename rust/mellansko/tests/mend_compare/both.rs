//! Both ways of mending, which are lent the same.

use crate::lent::Lent;
use crate::made::Made;
use crate::random::Random;
use crate::words::Words;
use mellansko::numbers;
use reference::feed::reading;
use reference::mend::mend_words;

/// Kinds of the answer (docs/FORMAT.md, §12.10).
pub const MENDED: u64 = 0;
pub const REFUSED: u64 = 1;

pub struct Both {
    pub random: Random,
    /// The calls that were compared, and what the logs that were examined had in them.
    pub made: Made,
}

impl Both {
    pub fn new() -> Both {
        Both {
            random: Random::new(),
            made: Made::default(),
        }
    }

    /// So many random bytes, so that what is written and what is not shows.
    pub fn lent(&mut self, length: usize) -> Lent {
        let bytes = self.random.bytes(length);
        Lent::new(&bytes, &mut self.random)
    }

    /// One call to both.
    pub fn mend(
        &mut self,
        bad: &Lent,
        fresh: &mut Lent,
        limit: usize,
        buffer: &mut Lent,
    ) -> [u64; 10] {
        // Such words as no answer has, so that one that is left out shows.
        let mut answer = Words::new([u64::MAX; 10]);
        let kind = numbers::mend(
            bad.tested(),
            fresh.tested_mut(),
            limit,
            buffer.tested_mut(),
            answer.tested(),
        );
        let (slice, gathered) = (fresh.expected_mut(), buffer.expected_mut());
        let expected = mend_words(bad.expected(), slice, limit, gathered);
        *answer.expected() = expected;
        self.made.calls += 1;
        let call = || {
            let lengths = [bad.len(), fresh.len(), buffer.len()];
            let (made, random) = (self.made.calls, &self.random);
            format!("bad, fresh and buffer {lengths:?}, limit {limit}, call {made}, {random}")
        };
        let (tested, expected_around) = answer.both();
        assert_eq!(tested, expected_around, "answer, {}", call());
        assert_eq!(kind, expected[0], "what is returned, {}", call());
        assert!(bad.is_same(), "bad log, {}", call());
        assert!(fresh.is_same(), "fresh slice, {}", call());
        assert!(buffer.is_same(), "buffer, {}", call());
        expected
    }

    /// A call with a fresh slice and a buffer of these lengths, whose bytes are random.
    pub fn with(&mut self, bad: &Lent, fresh: usize, limit: usize, buffer: usize) -> [u64; 10] {
        let [mut fresh, mut buffer] = [fresh, buffer].map(|length| self.lent(length));
        self.mend(bad, &mut fresh, limit, &mut buffer)
    }

    /// A log at a limit: into a slice of its own length, of the mended one's, a few bytes more, and
    /// less: a byte, some, and all of them. The buffer is as long as the limit, or a little longer.
    pub fn examine(&mut self, bytes: &[u8], limit: usize) {
        for answer in reading(bytes, limit) {
            self.made.answered(&answer);
        }
        let bad = Lent::new(bytes, &mut self.random);
        let [_, length, ..] = self.into(&bad, bytes.len(), limit, MENDED);
        let length = length as usize;
        let more = length + 1 + self.random.below(40);
        for fresh in [length, more] {
            self.into(&bad, fresh, limit, MENDED);
        }
        if length > 0 {
            for fresh in [length - 1, self.random.below(length), 0] {
                self.into(&bad, fresh, limit, REFUSED);
            }
        }
    }

    /// A call whose answer is of this kind.
    fn into(&mut self, bad: &Lent, fresh: usize, limit: usize, due: u64) -> [u64; 10] {
        let buffer = limit + self.random.below(3);
        let answer = self.with(bad, fresh, limit, buffer);
        let (log, random) = (bad.len(), &self.random);
        assert_eq!(answer[0], due, "{log} bytes into {fresh}, {random}");
        answer
    }
}
