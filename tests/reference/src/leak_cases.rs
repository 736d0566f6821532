//! The cases that a leak test has to meet, and how often it did: in major records that are taken, string
//! by string, where the path bit is clear.

use crate::feed::records;
use crate::hall::{Hall, TAKEN};
use crate::jet::{bit, leaks, Jet, MANIFOLDS};
use crate::jet_string::JetString;
use crate::record::{Record, StringMajor};
use crate::temperature_cases::{MistakenHalls, TemperatureCases};
use std::{fmt, iter};

#[derive(Clone, Debug, Default)]
pub struct LeakCases {
    strings: [u64; 5],
    /// Case by case: every leak by the fuel word alone, by the oxidizer word alone, by both words.
    met: [[u64; 3]; CASES.len()],
    temperatures: TemperatureCases,
}

/// Jets of a string, by their bits.
struct Leaky {
    mapped: u32,
    leaking: u32,
    /// Mapped and leaking, and the output shows it.
    shown: u32,
    /// Mapped, and the output would show another's leak that is taken for theirs.
    good: u32,
}

/// Of which mapped and idle jets of a string an output shows a leak.
#[derive(Clone, Copy)]
struct Shows {
    /// Their own.
    own: u32,
    /// Another's, taken for theirs.
    mistaken: u32,
    /// One that is not there, seen in this record alone.
    at_once: u32,
}

type Named = (&'static str, fn(&Leaky) -> bool);

const STRINGS: &str = "strings with no jet mapped, one, some, eleven on several manifolds, all";

/// "Some" are 2 to 31.
const CASES: [Named; 9] = [
    ("some mapped, only the lowest leaks", |jets| jets.some_mapped() && jets.only(jets.lowest())),
    ("some mapped, only the highest leaks", |jets| jets.some_mapped() && jets.only(jets.highest())),
    ("some mapped, several leak", |jets| jets.some_mapped() && jets.shown.count_ones() > 1),
    ("some mapped, only others leak, one of them beside a good one", |jets| {
        jets.some_mapped() && jets.only_others() && jets.good & (jets.leaking << 1 | jets.leaking >> 1) != 0
    }),
    ("some mapped, only others leak, one of them the n-th jet, and the n-th mapped is good", |jets| {
        jets.some_mapped() && jets.only_others() && jets.nth_of_good()
    }),
    ("all mapped, only the lowest leaks", |jets| jets.all_mapped() && jets.only(jets.lowest())),
    ("all mapped, only the highest leaks", |jets| jets.all_mapped() && jets.only(jets.highest())),
    ("all mapped, several leak", |jets| jets.all_mapped() && jets.shown.count_ones() > 1),
    ("none mapped, some leak", |jets| jets.mapped == 0 && jets.leaking != 0),
];

impl Leaky {
    fn some_mapped(&self) -> bool {
        (2..=31).contains(&self.mapped.count_ones())
    }

    fn all_mapped(&self) -> bool {
        self.mapped == u32::MAX
    }

    fn lowest(&self) -> u32 {
        1 << self.mapped.trailing_zeros()
    }

    fn highest(&self) -> u32 {
        1 << self.mapped.ilog2()
    }

    /// No other jet of the string leaks, mapped or not.
    fn only(&self, jet: u32) -> bool {
        self.leaking == jet && self.shown == jet
    }

    fn only_others(&self) -> bool {
        self.leaking != 0 && self.leaking & self.mapped == 0
    }

    fn nth_of_good(&self) -> bool {
        let mut mapped = (0..32).filter(|jet| bit(self.mapped, *jet)).enumerate();
        mapped.any(|(n, jet)| bit(self.leaking, n) && bit(self.good, jet))
    }
}

impl LeakCases {
    /// What the program reads for a night. Its reports show the leaks by which jets fail.
    pub fn add_feed(&mut self, input: &[u8]) {
        let (masks, records) = records(input);
        let mut hall = Hall::fresh(&masks);
        let mut mistaken = MistakenHalls::fresh(&masks);
        for record in &records {
            let before = record.major.is_some().then(|| hall.clone());
            if let (TAKEN, Some(before)) = (hall.settle(record), before) {
                self.add(record, &hall, shown_by_report(before, record, &hall));
            }
            mistaken.settle(record, &hall, &mut self.temperatures);
        }
    }

    /// A record that a call took, and the hall after it. The output shows all of that, and so each bad jet.
    pub fn add_call(&mut self, record: &Record, after: &Hall) {
        self.add(record, after, [Shows { own: u32::MAX, mistaken: u32::MAX, at_once: u32::MAX }; 4]);
    }

    fn add(&mut self, record: &Record, after: &Hall, shows: [Shows; 4]) {
        let Some(major) = &record.major else {
            return;
        };
        for s in (0..4).filter(|s| !bit(record.path.into(), *s)) {
            let (string, words) = (&after.strings[s], &record.strings[s]);
            let [fuel, oxidizer] = leaking(&major.strings[s]);
            let mapped = string.word(Jet::is_mapped);
            let idle = mapped & !words.commanded & !words.driver;
            let jets = Leaky {
                mapped,
                leaking: fuel | oxidizer,
                shown: (fuel | oxidizer) & idle & shows[s].own,
                good: idle & shows[s].mistaken,
            };
            self.add_string(string, &jets);
            let temperatures = &major.strings[s].temperatures;
            self.temperatures.add_leaking(temperatures, jets.shown);
            self.temperatures.add_good(temperatures, idle & shows[s].at_once);
            for (met, _) in self.met.iter_mut().zip(CASES).filter(|(_, (_, is_met))| is_met(&jets)) {
                met[0] += u64::from(oxidizer == 0);
                met[1] += u64::from(fuel == 0);
                met[2] += u64::from(fuel == oxidizer);
            }
        }
    }

    fn add_string(&mut self, string: &JetString, jets: &Leaky) {
        let has_jets = |manifold: &usize| string.jets.iter().any(|jet| jet.manifolds[*manifold]);
        let manifolds = (0..MANIFOLDS).filter(has_jets).count();
        let number = jets.mapped.count_ones();
        let is_met =
            [number == 0, number == 1, jets.some_mapped(), number == 11 && manifolds > 1, jets.all_mapped()];
        for (met, is_met) in self.strings.iter_mut().zip(is_met) {
            *met += u64::from(is_met);
        }
    }

    /// Demands that every case was met that often, by each word.
    pub fn each_met(&self, least: u64) -> Result<(), String> {
        match self.named().find(|(_, met)| met.iter().any(|met| *met < least)) {
            None => Ok(()),
            Some((name, met)) => Err(format!("not met {least} times: {name}: {met:?}")),
        }
    }

    fn named(&self) -> impl Iterator<Item = (&str, &[u64])> {
        let cases = CASES.iter().zip(&self.met).map(|((name, _), met)| (*name, &met[..]));
        iter::once((STRINGS, &self.strings[..])).chain(cases).chain(self.temperatures.named())
    }
}

/// The jets that leak by the fuel word, and those that do by the oxidizer word.
fn leaking(major: &StringMajor) -> [u32; 2] {
    let word = |leaks: fn([u16; 2]) -> bool| {
        (0..32).filter(|jet| leaks(major.temperatures[*jet])).map(|jet| 1 << jet).sum()
    };
    [word(|[fuel, _]| leaks([fuel, 64])), word(|[_, oxidizer]| leaks([64, oxidizer]))]
}

/// A report shows the leaks of failed jets that would not have failed had none leaked in this record. A leak that
/// is not there would only show in the second major cycle, which `MistakenHalls` are for.
fn shown_by_report(mut before: Hall, record: &Record, after: &Hall) -> [Shows; 4] {
    let mut warm = record.clone();
    for string in warm.major.iter_mut().flat_map(|major| &mut major.strings) {
        string.temperatures = [[64; 2]; 32];
    }
    before.settle(&warm);
    [0, 1, 2, 3].map(|s| Shows {
        own: after.strings[s].word(|jet| jet.failed && !before.strings[s].jets[jet.number].failed),
        mistaken: after.strings[s].word(|jet| !jet.failed && !jet.re_enabled),
        at_once: 0,
    })
}

impl fmt::Display for LeakCases {
    fn fmt(&self, lines: &mut fmt::Formatter) -> fmt::Result {
        self.named().try_for_each(|(name, met)| writeln!(lines, "{name}: {met:?}"))
    }
}
