//! The cases that the differences of the modules' banks have to meet, and how often they did.

use crate::cases::{Cases, Named};
use crate::feed::play;
use crate::hall::{Hall, Module, BOTH_WAYS, COUNT_ENDED, OUTBOX_SHORT, REPEAT, STALE, TAKEN, WRONG_KIND};
use crate::record::Record;
use std::fmt;

const MODULES: usize = 3;
/// The variants of each module, those of module 0 first.
const CASES: [Named<Weighing>; 11] = [
    ("brought by a major, each module: above 0, below 0, exactly 0", MODULES * 3, |weighing| {
        weighing.brought(|said| [said > 0, said < 0, said == 0])
    }),
    ("brought, each module: exactly 16, 17, -16, -17, 256, -256, 1,000, -1,000", MODULES * 8, |weighing| {
        weighing.brought(|said| [16, 17, -16, -17, 256, -256, 1_000, -1_000].map(|exact| said == exact))
    }),
    ("brought, each module: above 255, below -255", MODULES * 2, |weighing| {
        weighing.brought(|said| [said > 255, said < -255])
    }),
    ("brought, each module: unlike those of both others", MODULES, |weighing| {
        weighing.brought(|_| [weighing.is_unlike_others])
    }),
    (
        "one major after another, each module: from above 0 to below, from below to above, to 0, from 0",
        MODULES * 4,
        one_after_another,
    ),
    (
        "changed by a major, each module: it stays balanced, stays out of balance, comes out of it, comes into it",
        MODULES * 4,
        by_balance,
    ),
    (
        "changed by a major, each module: where the path of string 0, 1, 2, 3 alone has failed, where all have",
        MODULES * 5,
        by_paths,
    ),
    ("held over a minor, each module: above 0, below 0", MODULES * 2, |weighing| {
        weighing.held(|held| [held > 0, held < 0].map(|holds| holds && weighing.is_taken()))
    }),
    ("held over a minor behind a missed major, each module: other than 0", MODULES, |weighing| {
        weighing.held(|held| [held != 0 && weighing.is_taken() && weighing.major_missed])
    }),
    ("held over a record, each module, other than 0: answered 1, 2, 4, 7", MODULES * 4, |weighing| {
        weighing.held(|held| REFUSALS.map(|answer| held != 0 && weighing.answer == answer))
    }),
    ("held over a major that says another, each module: answered 1, 2, 4, 7", MODULES * 4, |weighing| {
        weighing.held(|held| REFUSALS.map(|answer| weighing.says_another(held) && weighing.answer == answer))
    }),
];
const REFUSALS: [u8; 4] = [STALE, REPEAT, WRONG_KIND, BOTH_WAYS];
/// From fresh each difference fits the rest of its module; and a feed lends no outbox, nor does one come to the count's
/// end.
const OF_HALLS: [Named<Weighing>; 4] = [
    ("held over a major that says another, each module: answered 3, 5", MODULES * 2, |weighing| {
        let refusals = [COUNT_ENDED, OUTBOX_SHORT];
        weighing.held(|held| refusals.map(|answer| weighing.says_another(held) && weighing.answer == answer))
    }),
    (
        "handed in and unlike the balance, the lesser, beyond 1,000, each module: held over a minor",
        MODULES * 3,
        |weighing| weighing.held(|_| weighing.misfits().map(|misfit| misfit && weighing.is_taken())),
    ),
    (
        "handed in and unlike the balance, the lesser, beyond 1,000, each module: held over a record refused",
        MODULES * 3,
        |weighing| weighing.held(|_| weighing.misfits().map(|misfit| misfit && !weighing.is_taken())),
    ),
    (
        "handed in and unlike the balance, the lesser, beyond 1,000, each module: replaced by a major",
        MODULES * 3,
        |weighing| weighing.brought(|said| weighing.misfits().map(|misfit| misfit && weighing.had() != said)),
    ),
];

#[derive(Clone, Debug)]
pub struct DifferenceCases {
    cases: Cases<Weighing>,
    /// A major record has been taken since the hall was fresh, or handed in.
    is_weighed: bool,
}

/// A module, and a record that settled, or would settle with a longer outbox.
#[derive(Clone, Debug)]
struct Weighing {
    number: usize,
    before: Module,
    after: Module,
    was_weighed: bool,
    is_unlike_others: bool,
    answer: u8,
    path: u8,
    major_missed: bool,
    /// Fuel less oxidizer by a major record, whether it is taken or not.
    said: Option<i32>,
}

impl DifferenceCases {
    pub fn of_feeds() -> DifferenceCases {
        DifferenceCases { cases: Cases::of(CASES), is_weighed: false }
    }

    pub fn of_halls() -> DifferenceCases {
        DifferenceCases { cases: Cases::of(CASES.into_iter().chain(OF_HALLS)), is_weighed: false }
    }

    /// What the program reads for a night.
    pub fn add_feed(&mut self, input: &[u8]) {
        self.begin();
        play(input, |answer, before, record, after| self.add(answer, before, record, after));
    }

    /// The next record is for another hall.
    pub fn begin(&mut self) {
        self.is_weighed = false;
    }

    /// A record, its answer, and the hall before it and after it.
    pub fn add(&mut self, answer: u8, before: &Hall, record: &Record, after: &Hall) {
        let said = record
            .major
            .as_ref()
            .map(|major| major.quantities.map(|[fuel, oxidizer]| i32::from(fuel) - i32::from(oxidizer)));
        for number in 0..MODULES {
            let is_like = |other: usize| said.is_some_and(|said| said[other] == said[number]);
            self.cases.add(&Weighing {
                number,
                before: before.modules[number],
                after: after.modules[number],
                was_weighed: self.is_weighed,
                is_unlike_others: (0..MODULES).all(|other| other == number || !is_like(other)),
                answer,
                path: record.path,
                major_missed: after.n > before.n && (after.n - 1) / 25 > before.n / 25,
                said: said.map(|said| said[number]),
            });
        }
        self.is_weighed |= answer == TAKEN && record.major.is_some();
    }

    /// Demands that every variant of every case was met that often.
    pub fn each_met(&self, least: u64) -> Result<(), String> {
        self.cases.each_met(least)
    }
}

impl fmt::Display for DifferenceCases {
    fn fmt(&self, lines: &mut fmt::Formatter) -> fmt::Result {
        self.cases.fmt(lines)
    }
}

impl Weighing {
    fn is_taken(&self) -> bool {
        self.answer == TAKEN
    }

    /// What the report before this one shows, or would show.
    fn had(&self) -> i32 {
        self.before.difference.into()
    }

    /// The module's variants that hold.
    fn of_module<const N: usize>(&self, holds: [bool; N]) -> Vec<usize> {
        (0..N).filter(|variant| holds[*variant]).map(|variant| N * self.number + variant).collect()
    }

    /// Of a major record that is taken.
    fn brought<const N: usize>(&self, variants: impl Fn(i32) -> [bool; N]) -> Vec<usize> {
        let said = self.said.filter(|_| self.is_taken());
        said.map(|said| self.of_module(variants(said))).unwrap_or_default()
    }

    /// Of a minor record, or of any that is not taken.
    fn held<const N: usize>(&self, variants: impl Fn(i32) -> [bool; N]) -> Vec<usize> {
        match self.is_taken() && self.said.is_some() {
            true => vec![],
            false => self.of_module(variants(self.had())),
        }
    }

    fn says_another(&self, held: i32) -> bool {
        self.said.is_some_and(|said| said != held)
    }

    /// Unlike what the module says of its balance, of its lesser bank, and beyond what any feed brings, as it was
    /// handed in.
    fn misfits(&self) -> [bool; 3] {
        let (had, before) = (self.had(), self.before);
        let misfits = [
            before.out_of_balance != (had.abs() > 16),
            before.oxidizer_is_lesser != (had > 0),
            had.abs() > 1_000,
        ];
        misfits.map(|misfit| misfit && !self.was_weighed)
    }
}

fn one_after_another(weighing: &Weighing) -> Vec<usize> {
    let had = weighing.had();
    weighing.brought(|said| {
        [had > 0 && said < 0, had < 0 && said > 0, had != 0 && said == 0, had == 0 && said != 0]
            .map(|changes| changes && weighing.was_weighed)
    })
}

fn by_balance(weighing: &Weighing) -> Vec<usize> {
    let moves = [weighing.before, weighing.after].map(|module| module.out_of_balance);
    weighing.brought(|said| {
        [[false, false], [true, true], [false, true], [true, false]]
            .map(|wanted| said != weighing.had() && moves == wanted)
    })
}

fn by_paths(weighing: &Weighing) -> Vec<usize> {
    weighing.brought(|said| {
        [0b0001, 0b0010, 0b0100, 0b1000, 0b1111].map(|paths| said != weighing.had() && weighing.path == paths)
    })
}
