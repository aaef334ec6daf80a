//! The result sheets.

use super::racers::Racer;
use super::times;

/// A racer's two times.
pub struct Total<'a> {
    pub racer: &'a Racer,
    pub taken: [u64; 2],
}

impl Total<'_> {
    fn together(&self) -> u64 {
        self.taken[0] + self.taken[1]
    }

    /// What counts: both times, by the factor of the class.
    fn counts(&self) -> u64 {
        self.racer.class.factor().times(self.together())
    }

    fn line(&self, fastest: u64) -> String {
        let Racer {
            bib,
            name,
            club,
            class,
            ..
        } = self.racer;
        let [first, second] = self.taken.map(times::taken);
        format!(
            "bib {bib}, {name}, {club}, {}, run 1 {first}, run 2 {second}, together {}, factor {}, counts {}, behind {}",
            class.name,
            times::taken(self.together()),
            class.factor().text(),
            times::taken(self.counts()),
            times::taken(self.counts() - fastest)
        )
    }
}

/// The sheet of the women or of the men, fastest first.
pub fn sheet(title: &str, mut totals: Vec<&Total>) -> String {
    totals.sort_by_key(|total| total.counts());
    let fastest = totals.first().map_or(0, |total| total.counts());
    let mut sheet = format!("results of {title}, giant slalom\n");
    for (i, total) in totals.iter().enumerate() {
        sheet += &format!("{}. {}\n", i + 1, total.line(fastest));
    }
    sheet
}
