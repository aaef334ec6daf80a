//! A run: who starts when, and what the beams at the start, at half the course and at the finish saw.

use super::generator::Generator;
use super::racers::Racer;
use super::times;

/// A run's number, and the time of day of its first start.
pub struct Run {
    pub number: usize,
    pub first_start: u64,
}

/// From one start to the next.
const INTERVAL: u64 = 40_000;

/// One racer's run.
pub struct Descent<'a> {
    pub racer: &'a Racer,
    start: u64,
    /// How long it took to the beam at half the course.
    half: u64,
    /// How long it took to the finish, if she came there.
    pub taken: Option<u64>,
}

impl Run {
    pub fn start_list(&self, racers: &[&Racer]) -> String {
        let mut list = format!("start list of run {}, giant slalom\n", self.number);
        for (i, racer) in racers.iter().enumerate() {
            let Racer {
                bib, name, club, ..
            } = racer;
            let start = times::of_day(self.start(i));
            let class = racer.class.name;
            list += &format!("{}. {start} bib {bib}, {name}, {club}, {class}\n", i + 1);
        }
        list
    }

    fn start(&self, i: usize) -> u64 {
        self.first_start + i as u64 * INTERVAL
    }

    /// Each racer goes within a third of a second of her time. A lower factor goes with a longer
    /// run; one in about 25 does not finish.
    pub fn descents<'a>(
        &self,
        racers: &[&'a Racer],
        generator: &mut Generator,
    ) -> Vec<Descent<'a>> {
        let mut descent = |(i, racer): (usize, &&'a Racer)| {
            let counts = 54_000 + generator.below(9_000);
            let taken = racer.class.factor().taken_for(counts);
            Descent {
                racer,
                start: self.start(i) + generator.below(333),
                half: taken / 2 + generator.below(2_000),
                taken: (generator.below(25) > 0).then_some(taken),
            }
        };
        racers.iter().enumerate().map(&mut descent).collect()
    }

    /// The records of a run, in the order in which things happened.
    pub fn records(&self, descents: &[Descent]) -> Vec<String> {
        let of = |descent: &Descent| {
            [
                self.start_record(descent),
                self.half_record(descent),
                self.end_record(descent),
            ]
        };
        let mut timed: Vec<(u64, String)> = descents.iter().flat_map(of).collect();
        timed.sort();
        timed.into_iter().map(|(_, record)| record).collect()
    }

    fn start_record(&self, descent: &Descent) -> (u64, String) {
        let (run, bib) = (self.number, descent.racer.bib);
        let time = times::of_day(descent.start);
        let record = format!("start, run {run}, bib {bib}, {time}");
        (descent.start, record)
    }

    fn half_record(&self, descent: &Descent) -> (u64, String) {
        let (run, bib) = (self.number, descent.racer.bib);
        let time = descent.start + descent.half;
        let record = format!("half, run {run}, bib {bib}, {}", times::of_day(time));
        (time, record)
    }

    fn end_record(&self, descent: &Descent) -> (u64, String) {
        let (run, bib) = (self.number, descent.racer.bib);
        let Some(taken) = descent.taken else {
            // The gate judge's word comes a minute after the start.
            let record = format!("out, run {run}, bib {bib}, did not finish");
            return (descent.start + 60_000, record);
        };
        let end = descent.start + taken;
        let factor = descent.racer.class.factor();
        let record = format!(
            "finish, run {run}, bib {bib}, {}, time {}, factor {}, counts {}",
            times::of_day(end),
            times::taken(taken),
            factor.text(),
            times::taken(factor.times(taken))
        );
        (end, record)
    }
}
