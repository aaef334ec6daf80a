//! Both readers, which are lent the same.

use crate::lent::Lent;
use crate::made::Made;
use crate::random::Random;
use crate::words::Words;
use mellansko::numbers::feed;
use reference::feed::{begin_words, end_words, next_words, take_words, Block};
use reference::log::BLOCK;

/// Kinds of the next answer (docs/FORMAT.md, §10.1, §11.14).
pub const RECORD: u64 = 0;
pub const SKIPPED: u64 = 1;
pub const END: u64 = 2;
pub const NOT_YET: u64 = 4;

pub struct Pair {
    pub state: Words,
    pub block: Lent,
    pub buffer: Lent,
    pub made: Made,
}

/// One call to both.
impl Pair {
    /// With random bytes in block and buffer, and no state yet.
    pub fn new(buffer: usize, random: &mut Random) -> Pair {
        let [block, buffer] = [BLOCK, buffer].map(|length| random.bytes(length));
        Pair {
            state: Words::new([(); 10].map(|()| random.next())),
            block: Lent::new(&block, random),
            buffer: Lent::new(&buffer, random),
            made: Made::default(),
        }
    }

    pub fn begin(&mut self, limit: u64) -> [u64; 10] {
        let before = self.state.get();
        let mut answer = unwritten();
        let kind = feed::begin(limit as usize, self.state.tested(), answer.tested());
        let (state, expected) = begin_words(limit);
        if let Some(state) = state {
            *self.state.expected() = state;
        }
        self.same(
            &format!("begin with {limit}"),
            before,
            kind,
            answer,
            expected,
        )
    }

    pub fn take(&mut self, piece: &[u8], random: &mut Random) -> [u64; 10] {
        let piece = Lent::new(piece, random);
        let answer = self.take_lent(&piece);
        assert!(piece.is_same(), "piece, take of {} bytes", piece.len());
        answer
    }

    /// That the piece is still the same is for the caller to see.
    pub fn take_lent(&mut self, piece: &Lent) -> [u64; 10] {
        let before = self.state.get();
        let mut answer = unwritten();
        let block = block_mut(self.block.tested_mut());
        let kind = feed::take(self.state.tested(), block, piece.tested(), answer.tested());
        let block = block_mut(self.block.expected_mut());
        let expected = take_words(self.state.expected(), block, piece.expected());
        let call = format!("take of {} bytes", piece.len());
        self.same(&call, before, kind, answer, expected)
    }

    pub fn end(&mut self) {
        let before = self.state.get();
        feed::end(self.state.tested());
        end_words(self.state.expected());
        self.made.calls += 1;
        let (tested, expected) = self.state.both();
        assert_eq!(tested, expected, "state, end at {before:?}");
    }

    pub fn next(&mut self) -> [u64; 10] {
        let before = self.state.get();
        let mut answer = unwritten();
        let block = block(self.block.tested());
        let buffer = self.buffer.tested_mut();
        let kind = feed::next(self.state.tested(), block, buffer, answer.tested());
        let block = self::block(self.block.expected());
        let expected = next_words(self.state.expected(), block, self.buffer.expected_mut());
        self.note(expected);
        let call = format!("next with a buffer of {}", self.buffer.len());
        self.same(&call, before, kind, answer, expected)
    }

    /// Notes what was answered.
    fn note(&mut self, answer: [u64; 10]) {
        let [kind, rest @ ..] = answer;
        let [start, end, third, .., fragments, _, _] = rest.map(|word| word as usize);
        match kind {
            RECORD => self.made.handed_out(start, end, third, fragments),
            SKIPPED => self.made.skipped(start, end, third as u8),
            _ => {}
        }
    }

    /// Both answers, and all that is lent, are the same.
    fn same(
        &mut self,
        call: &str,
        before: [u64; 10],
        kind: u64,
        mut answer: Words,
        expected: [u64; 10],
    ) -> [u64; 10] {
        self.made.calls += 1;
        *answer.expected() = expected;
        let call = || format!("{call} at {before:?}, call {}", self.made.calls);
        let (tested, expected_around) = answer.both();
        assert_eq!(tested, expected_around, "answer, {}", call());
        assert_eq!(kind, expected[0], "what is returned, {}", call());
        let (tested, expected_around) = self.state.both();
        assert_eq!(tested, expected_around, "state, {}", call());
        assert!(self.block.is_same(), "block, {}", call());
        assert!(self.buffer.is_same(), "buffer, {}", call());
        expected
    }
}

/// Calls one after the other.
impl Pair {
    /// A feed that is begun with this limit, and a buffer that has as many bytes or a few more.
    pub fn begun(limit: usize, random: &mut Random) -> Pair {
        let mut pair = Pair::new(limit + random.below(3), random);
        pair.begin(limit as u64);
        pair
    }

    /// Draws answers up to an end, a refusal, or until nothing more is certain. Gives those that
    /// say something.
    pub fn draw(&mut self) -> Vec<[u64; 10]> {
        let mut answers = Vec::new();
        loop {
            let answer = self.next();
            if answer[0] != NOT_YET {
                answers.push(answer);
            }
            if answer[0] >= END {
                return answers;
            }
        }
    }

    /// Takes all of a piece, and draws.
    pub fn feed(&mut self, mut piece: &[u8], random: &mut Random) -> Vec<[u64; 10]> {
        let mut answers = Vec::new();
        loop {
            let [kind, taken, ..] = self.take(piece, random);
            assert_eq!(kind, 0, "no refusal");
            piece = &piece[taken as usize..];
            answers.extend(self.draw());
            if piece.is_empty() {
                return answers;
            }
        }
    }

    /// Changes a byte of block or buffer, in both copies.
    pub fn alter(&mut self, random: &mut Random) {
        let (block, byte) = (random.below(2) == 0, random.next() as u8);
        let lent = if block {
            &mut self.block
        } else {
            &mut self.buffer
        };
        if lent.len() > 0 {
            let place = random.below(lent.len());
            lent.tested_mut()[place] = byte;
            lent.expected_mut()[place] = byte;
        }
    }
}

/// Such words as no answer has, so that one that is left out shows.
fn unwritten() -> Words {
    Words::new([u64::MAX; 10])
}

fn block(bytes: &[u8]) -> &Block {
    bytes.try_into().expect("a block")
}

fn block_mut(bytes: &mut [u8]) -> &mut Block {
    bytes.try_into().expect("a block")
}
