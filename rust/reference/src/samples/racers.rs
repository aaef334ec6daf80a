//! The racers, all invented, and their entries.

use super::factors::{Class, CLASSES};
use super::generator::Generator;
use super::times;

pub struct Racer {
    pub bib: usize,
    pub name: String,
    pub is_woman: bool,
    pub club: &'static str,
    pub class: &'static Class,
}

const COUNT: usize = 120;

const WOMEN: [&str; 12] = [
    "Alva", "Britta", "Disa", "Elin", "Freja", "Hedda", "Ingrid", "Kajsa", "Linnéa", "Märta",
    "Saga", "Tyra",
];

const MEN: [&str; 12] = [
    "Arvid", "Björn", "Edvin", "Folke", "Gösta", "Hjalmar", "Ivar", "Jöran", "Leif", "Måns",
    "Sixten", "Torkel",
];

const SURNAMES: [&str; 23] = [
    "Almvide",
    "Brännmo",
    "Dalhede",
    "Ekhamre",
    "Fjällvide",
    "Granmyr",
    "Hedåker",
    "Isvall",
    "Järvmo",
    "Kvistås",
    "Lövhede",
    "Myrvall",
    "Norrhamre",
    "Oxmyr",
    "Pilvide",
    "Rönnhede",
    "Skarpmo",
    "Tallvide",
    "Uttermyr",
    "Vidhamre",
    "Åshede",
    "Älvmyr",
    "Östvide",
];

const CLUBS: [&str; 7] = [
    "Kvistlidens SK",
    "Ormåsens IF",
    "Hedvallens SLK",
    "Björkmyrens SK",
    "Tranlidens IK",
    "Norrhällans SLK",
    "Vinteråsens IF",
];

/// In the order of their bibs, women and men in turn. Every name comes up once, since 12 and 23 have
/// no divisor in common; the men's surnames are shifted, or each pair of bibs would share one.
pub fn all() -> Vec<Racer> {
    let mut generator = Generator::new(2027);
    let mut racer = |i: usize| {
        let (is_woman, given, shift) = [(true, WOMEN, 0), (false, MEN, 9)][i % 2];
        Racer {
            bib: i + 1,
            name: format!("{} {}", given[i / 2 % 12], SURNAMES[(i / 2 + shift) % 23]),
            is_woman,
            club: CLUBS[generator.below(7) as usize],
            class: &CLASSES[generator.below(14) as usize],
        }
    };
    (0..COUNT).map(&mut racer).collect()
}

impl Racer {
    pub fn sex(&self) -> &'static str {
        if self.is_woman {
            "woman"
        } else {
            "man"
        }
    }

    /// The record of the racer's entry.
    pub fn entry(&self, generator: &mut Generator) -> String {
        let (bib, name, sex, club) = (self.bib, &self.name, self.sex(), self.club);
        let born = 1980 + generator.below(28);
        let chip = generator.below(0x1_0000);
        let [giant_slalom, slalom] =
            [115_000, 95_000].map(|fastest| times::taken(fastest + generator.below(30_000)));
        let day = 10 + generator.below(18);
        let guide = if self.class.is_guided() {
            ", with a guide"
        } else {
            ""
        };
        let class = self.class.name;
        format!(
            "entry, bib {bib}, {name}, {sex}, born {born}, {club}, class {class}{guide}, licence 2027-{:04}, \
             chip {chip:04X}; best of last season in giant slalom {giant_slalom}, in slalom {slalom}; \
             entered on 2027-01-{day} by the club, fee paid",
            4_000 + 7 * bib
        )
    }
}
