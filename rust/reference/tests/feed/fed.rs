//! A fed reader with a log to come, and what each call may change. Every call is checked: its
//! answer, all of the state, and every byte of block and buffer.

use crate::accepted::{accepted, Accepted};
use crate::random::Random;
use reference::feed::{self, begin, fits, next_watched, reading, take, Block, State, Told};
use reference::log::{next, record_bytes, Next, BLOCK, HEADER};
use std::ops::Range;

#[derive(Clone)]
pub struct Fed<'a> {
    pub log: &'a [u8],
    pub state: State,
    pub block: Box<Block>,
    pub buffer: Vec<u8>,
    pub answers: Vec<Next>,
    /// How often the byte at each place was summed.
    pub sums: Vec<u8>,
    /// What block and buffer have to be.
    block_due: Box<Block>,
    buffer_due: Vec<u8>,
    /// What the whole log has.
    whole: Vec<Next>,
    accepted: Vec<Accepted>,
    put: usize,
    seed: String,
}

impl<'a> Fed<'a> {
    /// Block and buffer are lent with any bytes, the buffer a little longer than it must be.
    pub fn new(random: &mut Random, log: &'a [u8], limit: usize) -> Fed<'a> {
        let block: Box<Block> = random.bytes(BLOCK).try_into().expect("a block");
        let longer = random.below(9);
        let buffer = random.bytes(limit + longer);
        let whole = reading(log, limit);
        Fed {
            log,
            state: begin(limit as u64).expect("a limit within the limit"),
            block_due: block.clone(),
            block,
            buffer_due: buffer.clone(),
            buffer,
            answers: Vec::new(),
            sums: vec![0; log.len()],
            accepted: accepted(log, &whole),
            whole,
            put: 0,
            seed: random.to_string(),
        }
    }

    pub fn came(&self) -> usize {
        self.state.came as usize
    }

    /// What has come of the log.
    pub fn so_far(&self) -> &'a [u8] {
        &self.log[..self.came()]
    }

    /// Offers the next bytes of the log, at most so many; gives how many were offered and taken.
    pub fn offer(&mut self, most: usize) -> (usize, usize) {
        let came = self.came();
        let piece = &self.log[came..self.log.len().min(came + most)];
        let before = self.state;
        let taken = take(&mut self.state, &mut self.block, piece).expect("not refused");
        let block_end = (before.place as usize / BLOCK + 1) * BLOCK;
        assert_eq!(taken, piece.len().min(block_end - came), "{}", self.seed);
        for place in came..came + taken {
            self.block_due[place % BLOCK] = self.log[place];
        }
        let due = State {
            came: before.came + taken as u64,
            ..before
        };
        assert_eq!(self.state, due, "{}", self.seed);
        self.check();
        (piece.len(), taken)
    }

    /// Announces the end.
    pub fn end(&mut self) {
        let due = State {
            over: 1,
            ..self.state
        };
        feed::end(&mut self.state);
        assert_eq!(self.state, due, "{}", self.seed);
        self.check();
    }

    /// Draws one answer.
    pub fn draw(&mut self) -> Told {
        let before = self.state;
        let sums = &mut self.sums;
        let mut summed = |range: Range<usize>| sums[range].iter_mut().for_each(|sums| *sums += 1);
        let (block, buffer) = (&*self.block, &mut self.buffer);
        let told = next_watched(&mut self.state, block, buffer, &mut summed);
        let unmoved = (before.limit, before.came, before.over);
        let State {
            limit, came, over, ..
        } = self.state;
        assert_eq!((limit, came, over), unmoved, "{}", self.seed);
        match told {
            Told::Answer(answer) => self.answered(answer, &before),
            Told::NotYet => {
                // There is room for a byte at least (§11.5).
                let room = came < (self.state.place / BLOCK as u64 + 1) * BLOCK as u64;
                assert!(room && over == 0, "{}, {before:?}", self.seed);
            }
            Told::Refused(number) => panic!("refused with {number}, {}", self.seed),
        }
        self.put_accepted();
        self.check_open();
        if matches!(told, Told::NotYet | Told::Answer(Next::End(_))) {
            self.check_place();
        }
        self.check();
        told
    }

    /// Draws answers until nothing more is certain, or up to the end.
    pub fn draw_all(&mut self) {
        while let Told::Answer(answer) = self.draw() {
            if matches!(answer, Next::End(_)) {
                return;
            }
        }
    }

    /// Calls that are refused, and change nothing: a piece that is too long by a byte; after the
    /// end any piece; a buffer that is too short by a byte.
    pub fn refused(&mut self, longest: &[u8]) {
        let before = self.state;
        let (state, block) = (&mut self.state, &mut self.block);
        let too_long = &longest[state.came as usize..];
        assert_eq!(take(state, block, too_long), Err(1), "{}", self.seed);
        if state.over == 1 {
            let piece = &too_long[..too_long.len().min(9) - 1];
            assert_eq!(take(state, block, piece), Err(20), "{}", self.seed);
            assert_eq!(take(state, block, &[]), Err(20), "{}", self.seed);
        }
        if let Some(short) = (state.limit as usize).checked_sub(1) {
            let told = feed::next(state, block, &mut self.buffer[..short]);
            assert_eq!(told, Told::Refused(6), "{}", self.seed);
        }
        assert_eq!(self.state, before, "{}", self.seed);
        self.check();
    }

    /// The answer is the whole log's. Its record's bytes are the buffer's first.
    fn answered(&mut self, answer: Next, before: &State) {
        let due = self.whole[self.answers.len()];
        assert_eq!(answer, due, "{}, {before:?}", self.seed);
        match answer {
            Next::End(_) => return,
            Next::Record { start, length, .. } => {
                self.check_how_stored(&answer);
                let mut buffer = vec![0; length];
                let record = next(self.log, start, length, &mut buffer);
                let bytes = record_bytes(self.log, &buffer, &record);
                assert!(self.buffer[..length] == *bytes, "{}", self.seed);
            }
            _ => {}
        }
        self.answers.push(answer);
        let (on, bad) = (self.state.place as usize, self.state.bad);
        assert_eq!(
            (on, bad),
            (answer.place_after(self.log), 0),
            "{}",
            self.seed
        );
    }

    /// A record has the two numbers of the fragments that were accepted in its span (§16.7).
    fn check_how_stored(&self, answer: &Next) {
        let Next::Record {
            start,
            end,
            fragments,
            last_header,
            ..
        } = *answer
        else {
            panic!("{answer:?} is no record");
        };
        let inside = |accepted: &&Accepted| (start..end).contains(&accepted.span.start);
        let inside: Vec<&Accepted> = self.accepted.iter().filter(inside).collect();
        let last = inside.last().map(|last| last.span.start);
        let how = (fragments, Some(last_header));
        assert_eq!(how, (inside.len(), last), "{}, {answer:?}", self.seed);
    }

    /// The fragments that the place has passed are in the buffer now, one after the other.
    fn put_accepted(&mut self) {
        while let Some(passed) = self.accepted.get(self.put) {
            if passed.span.end > self.state.place as usize {
                return;
            }
            let part = passed.front..passed.front + passed.length();
            self.buffer_due[part].copy_from_slice(passed.data(self.log));
            self.put += 1;
        }
    }

    /// What is open is what was accepted since the last answer (§16.7 for the last two numbers).
    fn check_open(&self) {
        let open = self.open();
        let place = |accepted: Option<&Accepted>| accepted.map_or(0, |one| one.span.start);
        let due = [
            usize::from(!open.is_empty()),
            place(open.first()),
            open.iter().map(Accepted::length).sum(),
            open.len(),
            place(open.last()),
        ];
        let state = [
            self.state.opened,
            self.state.start,
            self.state.length,
            self.state.fragments,
            self.state.last_header,
        ];
        assert_eq!(state, due.map(|number| number as u64), "{}", self.seed);
    }

    /// With nothing more certain, and at the end: the place is where the open fragments or the last
    /// answer end, or after the trailer there, if all of it has come or all that there is. (By then
    /// a dirty trailer is the last answer.)
    fn check_place(&self) {
        let end = self
            .open()
            .last()
            .map_or(self.since(), |open| open.span.end);
        let left = BLOCK - end % BLOCK;
        let come = left.min(self.came() - end);
        let passed = left < HEADER && (come == left || self.state.over == 1);
        let due = if passed { end + come } else { end };
        assert_eq!(self.state.place as usize, due, "{}", self.seed);
    }

    fn since(&self) -> usize {
        let last = self.answers.last();
        last.map_or(0, |answer| answer.place_after(self.log))
    }

    fn open(&self) -> &[Accepted] {
        let accepted = &self.accepted[..self.put];
        let before = |accepted: &Accepted| accepted.span.start < self.since();
        &accepted[accepted.partition_point(before)..]
    }

    /// With nothing more certain: the reason of a bad fragment that has come, with nothing open. A
    /// dirty trailer is no fragment (§11.9).
    pub fn check_remembered(&self) {
        let State { place, opened, .. } = self.state;
        let limit = self.state.limit as usize;
        let mut buffer = vec![0; limit];
        let place = place as usize;
        let due = match next(self.so_far(), place, limit, &mut buffer) {
            Next::Skip { start, reason, .. } if opened == 0 && start == place && reason < 4 => {
                u64::from(reason)
            }
            _ => 0,
        };
        assert_eq!(self.state.bad, due, "{}, {:?}", self.seed, self.state);
    }

    fn check(&self) {
        assert!(fits(&self.state), "{}, {:?}", self.seed, self.state);
        assert!(self.block == self.block_due, "block, {}", self.seed);
        assert!(self.buffer == self.buffer_due, "buffer, {}", self.seed);
    }

    /// Once the end is announced: the rest of the answers, the same end as often as it is asked
    /// for, and no byte summed more than twice.
    pub fn finish(&mut self) {
        self.draw_all();
        assert_eq!(self.answers.len() + 1, self.whole.len(), "{}", self.seed);
        let (state, due) = (self.state, self.whole[self.answers.len()]);
        for _ in 0..3 {
            assert_eq!(self.draw(), Told::Answer(due), "{}", self.seed);
            assert_eq!(self.state, state, "{}", self.seed);
        }
        let most = self.sums.iter().max();
        assert!(most <= Some(&2), "{most:?} sums of a byte, {}", self.seed);
    }
}
