//! The cases that re-enables of jets behind closed valves have to meet, and how often they did.

use crate::behind::Behind;
use crate::cases::{each, only, Cases, Manifolds, Named, EACH_MANIFOLD};
use crate::feed::play;
use crate::hall::{Hall, BOTH_WAYS};
use crate::jet::{bit, MANIFOLDS};
use crate::record::Record;
use std::fmt;

const CASES: [Named<Behind>; 12] = [
    ("a re-enable ignored: each manifold of each string", EACH_MANIFOLD, |asked| each(ignored_for(asked))),
    (
        "ignored, the valve closed before: a jet that was good then, one failed before, one good then and inhibited \
         since, one inhibited before",
        4,
        by_jet,
    ),
    (
        "ignored in the record that closes the valve: a good jet, a failed one, one with a re-enable in force",
        3,
        as_it_closes,
    ),
    (
        "done in the record that opens the valve: a jet that was good when it closed, one failed before, an inhibited one",
        3,
        as_it_opens,
    ),
    ("ignored, and one done: in the same string, for the same manifold of another string", 2, beside_done),
    (
        "an inhibit done behind a closed valve: a jet good when it closed, one failed before, one whose manifold has a \
         re-enable ignored",
        3,
        inhibited_behind,
    ),
    (
        "7 by a jet named both ways: behind a valve that is closed, that the record closes, that it opens",
        3,
        both_ways_behind,
    ),
    (
        "a valve opens after a re-enable was ignored: the jet is good again, is failed as when it closed, was good \
         then and is inhibited",
        3,
        opens_later,
    ),
    (
        "the path is back by that record: ignored, the good copy's valve closed, open; done, the good copy's closed",
        3,
        path_is_back,
    ),
    ("unlike the good copy: ignored, its valve open; done, its valve closed", 2, unlike_the_good_copy),
    (
        "a close bit set behind a closed valve, by jets with a re-enable ignored in that record, by such before it",
        2,
        closes,
    ),
    ("ignored where d is 1, 2 to 25, more", 3, by_distance),
];
/// From fresh each jet behind a closed valve is failed, none has a re-enable in force, and none is on two manifolds.
const OF_HALLS: [Named<Behind>; 2] = [
    ("ignored: the jet is good and stays so, its re-enable is in force and stays so", 2, as_handed_in),
    (
        "ignored, the jet on several manifolds: the lowest closed, the highest open; the reverse",
        2,
        of_several,
    ),
];

#[derive(Clone, Debug)]
pub struct ClosedValveCases {
    cases: Cases<Behind>,
    /// Jets of each string of which a re-enable was ignored since their valve closed.
    ignored: [u32; 4],
}

impl ClosedValveCases {
    pub fn of_feeds() -> ClosedValveCases {
        ClosedValveCases { cases: Cases::of(CASES), ignored: [0; 4] }
    }

    pub fn of_halls() -> ClosedValveCases {
        ClosedValveCases { cases: Cases::of(CASES.into_iter().chain(OF_HALLS)), ignored: [0; 4] }
    }

    /// What the program reads for a night.
    pub fn add_feed(&mut self, input: &[u8]) {
        self.begin();
        play(input, |answer, before, record, after| self.add(answer, before, record, after));
    }

    /// The next record is for another hall.
    pub fn begin(&mut self) {
        self.ignored = [0; 4];
    }

    /// A record, its answer, and the hall before it and after it.
    pub fn add(&mut self, answer: u8, before: &Hall, record: &Record, after: &Hall) {
        let mut strings = [0, 1, 2, 3].map(|s| Behind::of(s, answer, before, record, after));
        let done = strings.each_ref().map(|asked| asked.manifolds_of(asked.done()));
        for (s, asked) in strings.iter_mut().enumerate() {
            asked.ignored_before = self.ignored[s];
            asked.done_elsewhere = (0..4).filter(|other| *other != s).fold(0, |all, other| all | done[other]);
            self.cases.add(asked);
            if asked.heard {
                self.ignored[s] = (self.ignored[s] | asked.ignored()) & asked.closed;
            }
        }
    }

    /// Demands that every variant of every case was met that often.
    pub fn each_met(&self, least: u64) -> Result<(), String> {
        self.cases.each_met(least)
    }
}

impl fmt::Display for ClosedValveCases {
    fn fmt(&self, lines: &mut fmt::Formatter) -> fmt::Result {
        self.cases.fmt(lines)
    }
}

fn ignored_for(asked: &Behind) -> Manifolds {
    let mut manifolds = [0; 4];
    manifolds[asked.s] = asked.manifolds_of(asked.ignored()) & !asked.valves;
    manifolds
}

/// The variants of which some jet is one.
fn some(variants: &[u32]) -> Vec<usize> {
    (0..variants.len()).filter(|variant| variants[*variant] != 0).collect()
}

fn by_jet(asked: &Behind) -> Vec<usize> {
    let ignored = asked.ignored() & asked.was_closed;
    let others = ignored & !asked.was_inhibited;
    let inhibited = ignored & asked.was_inhibited & asked.inhibited;
    some(&[others & asked.saved, others & !asked.saved, inhibited & asked.saved, inhibited & !asked.saved])
}

fn as_it_closes(asked: &Behind) -> Vec<usize> {
    let ignored = asked.ignored() & !asked.was_closed;
    let others = ignored & !asked.was_re_enabled;
    some(&[others & asked.saved, others & !asked.saved, ignored & asked.was_re_enabled])
}

fn as_it_opens(asked: &Behind) -> Vec<usize> {
    let done = asked.done() & asked.was_closed;
    let others = done & !asked.was_inhibited;
    some(&[others & asked.saved, others & !asked.saved, done & asked.was_inhibited])
}

fn beside_done(asked: &Behind) -> Vec<usize> {
    let ignored = asked.ignored();
    let here = ignored != 0 && asked.done() != 0;
    let elsewhere = asked.manifolds_of(ignored) & asked.done_elsewhere != 0;
    [only(here, 0), only(elsewhere, 1)].concat()
}

fn inhibited_behind(asked: &Behind) -> Vec<usize> {
    let done = asked.if_heard(asked.inhibit & asked.closed & !asked.was_inhibited);
    let beside = asked.manifolds_of(done) & asked.manifolds_of(asked.ignored());
    some(&[done & asked.saved, done & !asked.saved, beside.into()])
}

fn both_ways_behind(asked: &Behind) -> Vec<usize> {
    let named = if asked.answer == BOTH_WAYS { asked.inhibit & asked.re_enable } else { 0 };
    let (was_closed, closed) = (named & asked.was_closed, named & asked.closed);
    some(&[was_closed & closed, closed & !was_closed, was_closed & !closed])
}

fn opens_later(asked: &Behind) -> Vec<usize> {
    let opened = asked.if_heard(asked.was_closed & !asked.closed);
    let earlier = opened & asked.ignored_before & !asked.re_enable;
    let (good, failed) = (earlier & !asked.failed, earlier & asked.failed);
    some(&[
        good & asked.saved,
        failed & !asked.saved & !asked.inhibited,
        failed & asked.saved & asked.inhibited & asked.was_inhibited,
    ])
}

fn path_is_back(asked: &Behind) -> Vec<usize> {
    if !asked.path_is_back {
        return vec![];
    }
    let (ignored, good_closed) = (asked.ignored(), asked.good_closed);
    some(&[ignored & good_closed, ignored & !good_closed, asked.done() & good_closed])
}

/// Where no path is back, and the valve has moved since the last major record and before this one.
fn unlike_the_good_copy(asked: &Behind) -> Vec<usize> {
    if asked.path_is_back {
        return vec![];
    }
    let ignored = asked.ignored() & asked.was_closed;
    let done = asked.done() & !asked.was_closed;
    some(&[ignored & !asked.good_closed, done & asked.good_closed])
}

fn closes(asked: &Behind) -> Vec<usize> {
    let set_by_these_alone = |jets: u32| {
        let asks = |manifold: usize| asked.masks[manifold] & asked.asks_to_close;
        let is_set = |manifold: usize| bit(asked.close_gained.into(), manifold);
        (0..MANIFOLDS)
            .any(|manifold| is_set(manifold) && asks(manifold) & jets != 0 && asks(manifold) & !jets == 0)
    };
    let before = asked.ignored_before & asked.closed & !asked.re_enable;
    [only(set_by_these_alone(asked.ignored()), 0), only(set_by_these_alone(before), 1)].concat()
}

fn by_distance(asked: &Behind) -> Vec<usize> {
    let variant = match asked.d {
        0..=1 => 0,
        2..=25 => 1,
        _ => 2,
    };
    only(asked.ignored() != 0, variant)
}

fn as_handed_in(asked: &Behind) -> Vec<usize> {
    let ignored = asked.ignored() & asked.was_closed;
    some(&[ignored & !asked.failed, ignored & asked.was_re_enabled & asked.re_enabled])
}

fn of_several(asked: &Behind) -> Vec<usize> {
    let is_open = |manifold: usize| bit(asked.valves.into(), manifold);
    let ends = |lowest: bool, highest: bool| {
        (0..32).filter(|jet| bit(asked.ignored(), *jet)).filter_map(|jet| asked.of_several(jet)).any(
            |manifolds| is_open(manifolds[0]) == lowest && is_open(manifolds[manifolds.len() - 1]) == highest,
        )
    };
    [only(ends(false, true), 0), only(ends(true, false), 1)].concat()
}
