//! The words at which a leak test can go wrong, and how often jets that have them were shown: to leak, or to
//! be good where the output of a test that takes them for leaking would differ.

use crate::hall::{Hall, Masks};
use crate::jet::{bit, leaks};
use crate::record::Record;
use std::ops::RangeInclusive;

/// Jet by jet, fuel then oxidizer.
type Temperatures = [[u16; 2]; 32];
type Named = (&'static str, RangeInclusive<u16>);

const LEAKING: [Named; 6] = [
    ("a jet leaks by a word of 0 to 63", 0..=63),
    ("a jet leaks by a word of 32,768 to 65,535", 32_768..=65_535),
    ("a jet leaks by a word of exactly 0", 0..=0),
    ("a jet leaks by a word of exactly 63", 63..=63),
    ("a jet leaks by a word of exactly 32,768", 32_768..=32_768),
    ("a jet leaks by a word of exactly 65,535", 65_535..=65_535),
];
const GOOD: [Named; 2] = [
    ("a jet is good with a word of exactly 64", 64..=64),
    ("a jet is good with a word of exactly 32,767", 32_767..=32_767),
];

/// Which of a jet's words is one that the case names: this one, where the other does not leak, or both.
const WAYS: usize = 3;
const FUEL: usize = 0;
const OXIDIZER: usize = 1;
const BOTH: usize = 2;

#[derive(Clone, Debug, Default)]
pub struct TemperatureCases {
    leaking: [[u64; WAYS]; LEAKING.len()],
    good: [[u64; WAYS]; GOOD.len()],
}

impl TemperatureCases {
    /// Jets of a string whose leaks the output shows.
    pub fn add_leaking(&mut self, temperatures: &Temperatures, shown: u32) {
        add(&mut self.leaking, &LEAKING, temperatures, shown);
    }

    /// Jets of a string whose leaks the output would show, if they leaked.
    pub fn add_good(&mut self, temperatures: &Temperatures, idle: u32) {
        add(&mut self.good, &GOOD, temperatures, idle);
    }

    /// Case by case, in each way.
    pub fn named(&self) -> impl Iterator<Item = (&str, &[u64])> {
        let names = LEAKING.iter().chain(&GOOD).map(|(name, _)| *name);
        names.zip(self.leaking.iter().chain(&self.good).map(|met| &met[..]))
    }
}

fn add(counts: &mut [[u64; WAYS]], cases: &[Named], temperatures: &Temperatures, jets: u32) {
    for (met, (_, range)) in counts.iter_mut().zip(cases) {
        for jet in (0..32).filter(|jet| bit(jets, *jet)) {
            if let Some(way) = way(range, temperatures[jet]) {
                met[way] += 1;
            }
        }
    }
}

fn way(range: &RangeInclusive<u16>, [fuel, oxidizer]: [u16; 2]) -> Option<usize> {
    match [fuel, oxidizer].map(|word| range.contains(&word)) {
        [true, true] => Some(BOTH),
        [true, false] if !leaks([64, oxidizer]) => Some(FUEL),
        [false, true] if !leaks([fuel, 64]) => Some(OXIDIZER),
        _ => None,
    }
}

/// Halls that run beside the right one over a feed. Each takes the jets of one good case, in one way, for
/// leaking, and is set right when its report shows that: when a jet was taken so in one major cycle and is so
/// taken, or bad, in the next.
pub struct MistakenHalls(Vec<MistakenHall>);

struct MistakenHall {
    case: usize,
    way: usize,
    hall: Hall,
}

impl MistakenHalls {
    pub fn fresh(masks: &Masks) -> MistakenHalls {
        let halls = |case| (0..WAYS).map(move |way| MistakenHall { case, way, hall: Hall::fresh(masks) });
        MistakenHalls((0..GOOD.len()).flat_map(halls).collect())
    }

    /// A record that the right hall has settled. Counts the jets that only a mistaken hall reports as failed.
    pub fn settle(&mut self, record: &Record, right: &Hall, cases: &mut TemperatureCases) {
        for mistaken in &mut self.0 {
            mistaken.settle(record);
            let failed = [0, 1, 2, 3].map(|s| {
                let [mistaken, right] = [&mistaken.hall, right].map(|hall| &hall.strings[s]);
                mistaken.reported_fail_word() & !right.reported_fail_word()
            });
            if failed != [0; 4] {
                let jets: u32 = failed.iter().map(|word| word.count_ones()).sum();
                cases.good[mistaken.case][mistaken.way] += u64::from(jets);
                mistaken.hall = right.clone();
            }
        }
    }
}

impl MistakenHall {
    fn settle(&mut self, record: &Record) {
        let mut mistaken = record.clone();
        let (_, range) = &GOOD[self.case];
        let strings = mistaken.major.iter_mut().flat_map(|major| &mut major.strings);
        for words in strings.flat_map(|string| &mut string.temperatures) {
            if way(range, *words) == Some(self.way) {
                *words = [0; 2];
            }
        }
        self.hall.settle(&mistaken);
    }
}
