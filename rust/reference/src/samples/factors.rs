//! The classes and their factors, all invented.

use super::times;
use std::fmt::Write;

pub const DISCIPLINES: [&str; 2] = ["giant slalom", "slalom"];

/// A factor, in ten-thousandths.
#[derive(Clone, Copy)]
pub struct Factor(u64);

impl Factor {
    /// The time that counts for a time that was taken, rounded down to a millisecond.
    pub fn times(self, taken: u64) -> u64 {
        taken * self.0 / 10_000
    }

    /// A time taken for which about this much counts.
    pub fn taken_for(self, counts: u64) -> u64 {
        counts * 10_000 / self.0
    }

    pub fn text(self) -> String {
        format!("0.{:04}", self.0)
    }
}

/// A class, and its factors for the disciplines: of last season, and of this one.
pub struct Class {
    pub name: &'static str,
    last: [u64; 2],
    this: [u64; 2],
}

const fn class(name: &'static str, last: [u64; 2], this: [u64; 2]) -> Class {
    Class { name, last, this }
}

pub const CLASSES: [Class; 14] = [
    class("LW1", [8_294, 8_061], [8_203, 8_015]),
    class("LW2", [9_143, 9_027], [9_186, 9_052]),
    class("LW3", [8_871, 8_746], [8_904, 8_719]),
    class("LW4", [9_638, 9_561], [9_617, 9_583]),
    class("LW5/7", [9_512, 9_348], [9_496, 9_372]),
    class("LW6/8", [9_766, 9_684], [9_781, 9_655]),
    class("LW9", [8_953, 8_812], [8_927, 8_836]),
    class("LW10-1", [9_224, 8_407], [9_137, 8_429]),
    class("LW10-2", [8_236, 7_958], [8_261, 7_934]),
    class("LW11", [8_377, 8_142], [8_412, 8_167]),
    class("LW12", [8_594, 8_323], [8_618, 8_296]),
    class("B1", [7_683, 7_417], [7_652, 7_438]),
    class("B2", [8_847, 8_629], [8_873, 8_604]),
    class("B3", [9_268, 9_073], [9_241, 9_098]),
];

impl Class {
    /// This season's factor in giant slalom, the day's discipline.
    pub fn factor(&self) -> Factor {
        Factor(self.this[0])
    }

    /// Whether a racer has a guide in front.
    pub fn is_guided(&self) -> bool {
        self.name.starts_with('B')
    }
}

/// Last season's table, which the laptop still has.
pub fn of_last_season() -> String {
    let mut table = "factors of the season 2025/26\n".to_string();
    for class in &CLASSES {
        let [giant_slalom, slalom] = class.last.map(|factor| Factor(factor).text());
        let name = class.name;
        writeln!(
            table,
            "{name} in giant slalom {giant_slalom}, in slalom {slalom}"
        )
        .expect("a String takes all");
    }
    table
}

/// This season's table, with what each factor makes of whole seconds, for those who check times by
/// hand. That makes it longer than a block.
pub fn of_this_season() -> String {
    let mut table = "factors of the season 2026/27\n".to_string();
    for class in &CLASSES {
        for (discipline, factor) in DISCIPLINES.iter().zip(class.this.map(Factor)) {
            let (name, text) = (class.name, factor.text());
            write!(table, "{name} in {discipline}, factor {text}").expect("a String takes all");
            for seconds in 30..130 {
                let counts = times::taken(factor.times(seconds * 1_000));
                write!(table, "; {seconds} s {counts}").expect("a String takes all");
            }
            table += "\n";
        }
    }
    table
}
