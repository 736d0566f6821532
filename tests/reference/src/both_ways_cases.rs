//! The cases that the refusal of jets named both ways has to meet, and how often it did.

use crate::cases::{only, Cases, Named};
use crate::feed::play;
use crate::hall::{Hall, BOTH_WAYS, COUNT_ENDED, OUTBOX_SHORT, REPEAT, STALE, TAKEN, WRONG_KIND};
use crate::jet::{bit, Jet};
use crate::reader::look;
use crate::record::{Record, StringMajor};
use std::fmt;

/// Jets are mapped ones, unless said otherwise.
const CASES: [Named<Answered>; 12] = [
    ("7 by one jet alone, path in order: of string 0, 1, 2, 3", 4, |record| record.by_one_alone(false)),
    ("7 by one jet alone, under a path fault: of string 0, 1, 2, 3", 4, |record| record.by_one_alone(true)),
    ("7 by one jet alone of several mapped: the lowest, the highest", 2, by_lowest_or_highest),
    ("7 by several jets: of one string, of several", 2, by_several),
    ("7 by strings of which none is under a path fault, all are, some are", 3, by_path_faults),
    ("7 where d is 1, 2 to 25, more", 3, by_distance),
    ("7, and a step would have set a close bit, failed a jet", 2, without_a_step),
    ("7, and its cycle is taken by the next record, is missed", 2, taken_at_once_or_missed),
    ("a jet named both ways, answered 1, 2, 4", 3, |record| record.answered(&[STALE, REPEAT, WRONG_KIND])),
    ("taken, and jets in no mask named both ways: path in order, under a path fault", 2, in_no_mask),
    ("taken, and a jet in no mask named both ways that is mapped in another string", 1, mapped_elsewhere),
    (
        "taken, with inhibit and re-enable for two jets of a string, for one jet of two strings",
        2,
        each_one_way,
    ),
];
/// No temperatures of a hall's record read as a record, and a hall's calls are few.
const OF_FEEDS: [Named<Answered>; 2] = [
    ("7, and a good record stands inside", 1, |record| only(record.hides_another, 0)),
    ("7, and its cycle is taken after other records", 1, |record| {
        only(record.fate == Some(Fate::TakenLater), 0)
    }),
];
/// No feed comes to the end of the count, and the program's outbox is not short.
const OF_HALLS: [Named<Answered>; 1] =
    [("a jet named both ways, answered 3, 5", 2, |record| record.answered(&[COUNT_ENDED, OUTBOX_SHORT]))];

#[derive(Clone, Debug)]
pub struct BothWaysCases {
    cases: Cases<Answered>,
    refused: Option<Refused>,
}

/// The last record answered 7, until its cycle is taken or missed.
#[derive(Clone, Debug)]
struct Refused {
    cycle: u64,
    /// No record was settled since.
    just_now: bool,
}

/// What a record that is taken makes of the cycle of one that was answered 7.
#[derive(Clone, Copy, Debug, PartialEq, Eq)]
enum Fate {
    TakenAtOnce,
    TakenLater,
    Missed,
}

/// A record, and what became of it.
#[derive(Clone, Debug)]
struct Answered {
    answer: u8,
    d: u16,
    path: u8,
    mapped: [u32; 4],
    inhibit: [u32; 4],
    re_enable: [u32; 4],
    /// Answered 7, and without the requests for jets named both ways a step would have done this.
    would_close: bool,
    would_fail: bool,
    /// Answered 7, and another record would be found if it lost only its first byte.
    hides_another: bool,
    fate: Option<Fate>,
}

impl BothWaysCases {
    pub fn of_feeds() -> BothWaysCases {
        BothWaysCases { cases: Cases::of(CASES.into_iter().chain(OF_FEEDS)), refused: None }
    }

    pub fn of_halls() -> BothWaysCases {
        BothWaysCases { cases: Cases::of(CASES.into_iter().chain(OF_HALLS)), refused: None }
    }

    /// What the program reads for a night.
    pub fn add_feed(&mut self, input: &[u8]) {
        self.begin();
        play(input, |answer, before, record, _| self.add(answer, before, record));
    }

    /// The next record is for another hall.
    pub fn begin(&mut self) {
        self.refused = None;
    }

    /// A record, its answer, and the hall before it.
    pub fn add(&mut self, answer: u8, before: &Hall, record: &Record) {
        let mut answered = Answered::of(answer, before, record);
        answered.fate = self.fate(answer, u64::from(before.n) + u64::from(answered.d));
        self.cases.add(&answered);
    }

    fn fate(&mut self, answer: u8, cycle: u64) -> Option<Fate> {
        match (answer, &mut self.refused) {
            (BOTH_WAYS, _) => self.refused = Some(Refused { cycle, just_now: true }),
            (TAKEN, Some(refused)) if cycle >= refused.cycle => {
                let fate = match (cycle > refused.cycle, refused.just_now) {
                    (true, _) => Fate::Missed,
                    (false, true) => Fate::TakenAtOnce,
                    (false, false) => Fate::TakenLater,
                };
                self.refused = None;
                return Some(fate);
            }
            (OUTBOX_SHORT, _) | (_, None) => {}
            (_, Some(refused)) => refused.just_now = false,
        }
        None
    }

    /// Demands that every variant of every case was met that often.
    pub fn each_met(&self, least: u64) -> Result<(), String> {
        self.cases.each_met(least)
    }
}

impl fmt::Display for BothWaysCases {
    fn fmt(&self, lines: &mut fmt::Formatter) -> fmt::Result {
        self.cases.fmt(lines)
    }
}

impl Answered {
    fn of(answer: u8, before: &Hall, record: &Record) -> Answered {
        let words = |word: fn(&StringMajor) -> u32| match &record.major {
            Some(major) => [0, 1, 2, 3].map(|s| word(&major.strings[s])),
            None => [0; 4],
        };
        let mut answered = Answered {
            answer,
            d: record.wire.wrapping_sub(before.n as u16),
            path: record.path,
            mapped: [0, 1, 2, 3].map(|s| before.strings[s].word(Jet::is_mapped)),
            inhibit: words(|string| string.inhibit),
            re_enable: words(|string| string.re_enable),
            would_close: false,
            would_fail: false,
            hides_another: false,
            fate: None,
        };
        if answer == BOTH_WAYS {
            answered.look_closer(before, record);
        }
        answered
    }

    fn look_closer(&mut self, before: &Hall, record: &Record) {
        let (mut unnamed, mut stepped) = (record.clone(), before.clone());
        let strings = unnamed.major.iter_mut().flat_map(|major| &mut major.strings);
        for (string, both) in strings.zip(self.both_ways()) {
            string.inhibit &= !both;
            string.re_enable &= !both;
        }
        stepped.settle(&unnamed);
        let pairs = || before.strings.iter().zip(&stepped.strings);
        self.would_close = pairs().any(|(before, stepped)| stepped.close & !before.close != 0);
        self.would_fail =
            pairs().any(|(before, stepped)| stepped.reported_fail_word() & !before.reported_fail_word() != 0);
        self.hides_another = look(&mut record.bytes()[1..].to_vec()).is_some();
    }

    /// The mapped jets that are named both ways, string by string.
    fn both_ways(&self) -> [u32; 4] {
        [0, 1, 2, 3].map(|s| self.inhibit[s] & self.re_enable[s] & self.mapped[s])
    }

    /// The jets in no mask that are.
    fn others_both_ways(&self) -> [u32; 4] {
        [0, 1, 2, 3].map(|s| self.inhibit[s] & self.re_enable[s] & !self.mapped[s])
    }

    fn has_path_fault(&self, s: usize) -> bool {
        bit(self.path.into(), s)
    }

    /// The strings that have mapped jets named both ways, if the answer is 7.
    fn strings(&self) -> Vec<usize> {
        let both_ways = self.both_ways();
        (0..4).filter(|s| self.answer == BOTH_WAYS && both_ways[*s] != 0).collect()
    }

    /// The string and the jet's bit, if the answer is 7 and no other jet is named both ways.
    fn one_alone(&self) -> Option<(usize, u32)> {
        match self.strings()[..] {
            [s] => Some((s, self.both_ways()[s])).filter(|(_, jets)| jets.count_ones() == 1),
            _ => None,
        }
    }

    fn by_one_alone(&self, path_fault: bool) -> Vec<usize> {
        let one = self.one_alone().filter(|(s, _)| self.has_path_fault(*s) == path_fault);
        one.into_iter().map(|(s, _)| s).collect()
    }

    /// Which of these the answer is, where a mapped jet is named both ways.
    fn answered(&self, answers: &[u8]) -> Vec<usize> {
        let answer = answers.iter().position(|answer| *answer == self.answer);
        answer.filter(|_| self.both_ways() != [0; 4]).into_iter().collect()
    }
}

fn by_lowest_or_highest(record: &Answered) -> Vec<usize> {
    let Some((s, jet)) = record.one_alone() else {
        return vec![];
    };
    let mapped = record.mapped[s];
    let several = mapped.count_ones() > 1;
    let lowest = several && jet.trailing_zeros() == mapped.trailing_zeros();
    let highest = several && jet.leading_zeros() == mapped.leading_zeros();
    [only(lowest, 0), only(highest, 1)].concat()
}

fn by_several(record: &Answered) -> Vec<usize> {
    match record.strings()[..] {
        [] => vec![],
        [s] => only(record.both_ways()[s].count_ones() > 1, 0),
        _ => vec![1],
    }
}

fn by_path_faults(record: &Answered) -> Vec<usize> {
    let strings = record.strings();
    let faults = strings.iter().filter(|s| record.has_path_fault(**s)).count();
    match (faults, strings.len()) {
        (_, 0) => vec![],
        (0, _) => vec![0],
        (faults, all) => vec![if faults == all { 1 } else { 2 }],
    }
}

fn by_distance(record: &Answered) -> Vec<usize> {
    let variant = match record.d {
        0..=1 => 0,
        2..=25 => 1,
        _ => 2,
    };
    only(record.answer == BOTH_WAYS, variant)
}

fn without_a_step(record: &Answered) -> Vec<usize> {
    [only(record.would_close, 0), only(record.would_fail, 1)].concat()
}

fn taken_at_once_or_missed(record: &Answered) -> Vec<usize> {
    [only(record.fate == Some(Fate::TakenAtOnce), 0), only(record.fate == Some(Fate::Missed), 1)].concat()
}

fn in_no_mask(record: &Answered) -> Vec<usize> {
    let others = record.others_both_ways();
    let named = |path_fault| {
        record.answer == TAKEN && (0..4).any(|s| others[s] != 0 && record.has_path_fault(s) == path_fault)
    };
    [only(named(false), 0), only(named(true), 1)].concat()
}

fn mapped_elsewhere(record: &Answered) -> Vec<usize> {
    let others = record.others_both_ways();
    let elsewhere = (0..4).any(|s| record.mapped.iter().any(|mapped| others[s] & mapped != 0));
    only(record.answer == TAKEN && elsewhere, 0)
}

fn each_one_way(record: &Answered) -> Vec<usize> {
    let inhibit = |s: usize| record.inhibit[s] & record.mapped[s];
    let re_enable = |s: usize| record.re_enable[s] & record.mapped[s];
    let taken = record.answer == TAKEN;
    let two_jets = (0..4).any(|s| inhibit(s) != 0 && re_enable(s) != 0);
    let two_strings = (0..4).any(|s| (0..4).any(|other| inhibit(s) & re_enable(other) != 0));
    [only(taken && two_jets, 0), only(taken && two_strings, 1)].concat()
}
