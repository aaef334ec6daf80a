//! What the types of the Rust crate cost: its calls beside those of C that they stand on, on the
//! same log. Every way looks at the same bytes.

use crate::sample::Sample;
use crate::turns::{best, timed, Way};
use mellansko::numbers;
use mellansko::{Answer, Next, Reading, LONGEST_RECORD};
use std::hint::black_box;

/// Of short records, so that there is little in a call but what it costs to make it.
const LENGTH: usize = 100;

/// The difference is a small part of a call, and is looked for in the best of many runs. They are
/// short, so that some of them have the machine to themselves.
const ROUNDS: usize = 500;
const LOG: usize = 1 << 19;

pub fn print() {
    println!("\nrecords of {LENGTH} bytes: ns a call, and how many more than the call of C takes");
    let sample = Sample::new(LENGTH, LOG);
    sample.print_calls(
        "write",
        vec![("C", c_append(&sample)), ("append", append(&sample))],
    );
    let reading = vec![
        ("C", c_next(&sample)),
        ("next", next(&sample)),
        ("advance", advance(&sample)),
        ("iterator", iterator(&sample)),
    ];
    sample.print_calls("read", reading);
}

impl Sample {
    /// A line for each way, the first of which is that of C.
    fn print_calls(&self, what: &str, named: Vec<(&str, Way)>) {
        let (names, mut ways): (Vec<&str>, Vec<Way>) = named.into_iter().unzip();
        let times = best(ROUNDS, &mut ways);
        let calls = times
            .iter()
            .map(|time| time.as_nanos() as f64 / self.count as f64);
        let calls: Vec<f64> = calls.collect();
        for (name, call) in names.iter().zip(&calls) {
            println!("{what:>5} {name:>10} {call:>8.1} {:>+6.1}", call - calls[0]);
        }
    }
}

fn c_append(sample: &Sample) -> Way<'_> {
    let mut log = vec![0; sample.log.len()];
    Box::new(timed(move || {
        let (mut mark, mut answer) = (0, [0; 10]);
        for _ in 0..sample.count {
            let record = black_box(&sample.record);
            assert_eq!(numbers::append(&mut log, mark, record, &mut answer), 0);
            mark = answer[1] as usize;
        }
        assert_eq!(mark, sample.log.len());
    }))
}

fn append(sample: &Sample) -> Way<'_> {
    let mut log = vec![0; sample.log.len()];
    Box::new(timed(move || {
        let mut mark = 0;
        for _ in 0..sample.count {
            let record = black_box(&sample.record);
            mark = mellansko::append(&mut log, mark, record).expect("room for it");
        }
        assert_eq!(mark, sample.log.len());
    }))
}

fn c_next(sample: &Sample) -> Way<'_> {
    let mut buffer = vec![0; LONGEST_RECORD];
    Box::new(timed(move || {
        let log = &black_box(sample).log[..];
        let (mut place, mut answer) = (0, [0; 10]);
        while numbers::next(log, place, LONGEST_RECORD, &mut buffer, &mut answer) == 0 {
            let [length, data] = [answer[3], answer[5]].map(|word| word as usize);
            black_box(match answer[4] {
                0 => &log[data..data + length],
                _ => &buffer[..length],
            });
            place = answer[6] as usize;
        }
        assert_eq!(place, log.len());
    }))
}

pub fn next(sample: &Sample) -> Way<'_> {
    let mut buffer = vec![0; LONGEST_RECORD];
    Box::new(timed(move || {
        let log = &black_box(sample).log[..];
        let mut place = 0;
        while let Ok((Next::Record(record), on)) =
            mellansko::next(log, place, LONGEST_RECORD, &mut buffer)
        {
            black_box(record.bytes(log, &buffer));
            place = on;
        }
        assert_eq!(place, log.len());
    }))
}

fn advance(sample: &Sample) -> Way<'_> {
    Box::new(move || {
        let log = &black_box(sample).log[..];
        let mut reading = Reading::of(log).expect("no refusal");
        timed(move || {
            while let Some(Answer::Record { bytes, .. }) = reading.advance() {
                black_box(&*bytes);
            }
            assert_eq!(reading.place(), log.len());
        })()
    })
}

fn iterator(sample: &Sample) -> Way<'_> {
    Box::new(move || {
        let log = &black_box(sample).log[..];
        let mut reading = Reading::of(log).expect("no refusal");
        timed(move || {
            while let Some(Answer::Record { bytes, .. }) = reading.next() {
                black_box(&*bytes);
            }
            assert_eq!(reading.place(), log.len());
        })()
    })
}
