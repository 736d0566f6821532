//! The cases that the manifolds of a string have to meet, and how often they did.

use crate::cases::{each, only, Cases, Manifolds, Named, EACH_MANIFOLD};
use crate::feed::{play, records};
use crate::hall::{Hall, Masks, TAKEN};
use crate::jet::{bit, Jet, MANIFOLDS};
use crate::jet_string::JetString;
use crate::record::Record;
use std::fmt;

/// Of the strings of each map.
const OF_MAPS: [Named<[u32; MANIFOLDS]>; 3] = [
    ("strings with jets on no manifold, on one, on two, .., on all", MANIFOLDS + 1, |masks| {
        vec![sizes(masks).iter().filter(|size| **size > 0).count()]
    }),
    ("strings with a full mask", 1, |masks| only(masks.contains(&u32::MAX), 0)),
    ("strings with one jet on a manifold and eight or more on another", 1, |masks| {
        only(sizes(masks).contains(&1) && sizes(masks).iter().any(|size| *size >= 8), 0)
    }),
];
/// Of taken records, in strings whose path bit is clear. A report shows each.
const OF_RECORDS: [Named<Taken>; 3] = [
    ("a close bit set: each manifold of each string", EACH_MANIFOLD, |taken| each(taken.close_bits)),
    ("a valve closes, and good jets fail: each manifold of each string", EACH_MANIFOLD, |taken| {
        each(taken.closings)
    }),
    ("a valve opens, and saved jets are good again: each manifold of each string", EACH_MANIFOLD, |taken| {
        each(taken.openings)
    }),
];

#[derive(Clone, Debug)]
pub struct ManifoldCases {
    maps: Cases<[u32; MANIFOLDS]>,
    records: Cases<Taken>,
}

/// The manifolds of which a record that is taken changes what a report shows.
#[derive(Clone, Debug, Default)]
struct Taken {
    close_bits: Manifolds,
    closings: Manifolds,
    openings: Manifolds,
}

impl Default for ManifoldCases {
    fn default() -> ManifoldCases {
        ManifoldCases { maps: Cases::of(OF_MAPS), records: Cases::of(OF_RECORDS) }
    }
}

impl ManifoldCases {
    /// What the program reads for a night.
    pub fn add_feed(&mut self, input: &[u8]) {
        self.add_map(&records(input).0);
        play(input, |answer, before, record, after| self.add(answer, before, record, after));
    }

    pub fn add_map(&mut self, masks: &Masks) {
        masks.iter().for_each(|masks| self.maps.add(masks));
    }

    /// A record, its answer, and the hall before it and after it.
    pub fn add(&mut self, answer: u8, before: &Hall, record: &Record, after: &Hall) {
        if answer != TAKEN {
            return;
        }
        let mut taken = Taken::default();
        for s in (0..4).filter(|s| !bit(record.path.into(), *s)) {
            let (before, after) = (&before.strings[s], &after.strings[s]);
            let valves = record.strings[s].valves;
            taken.close_bits[s] = after.close_byte() & !before.close_byte();
            taken.closings[s] = manifolds(|i| closes(i, before, valves, after));
            taken.openings[s] = manifolds(|i| opens(i, before, valves, after));
        }
        self.records.add(&taken);
    }

    /// Demands that every variant of every case was met that often.
    pub fn each_met(&self, least: u64) -> Result<(), String> {
        self.maps.each_met(least).and_then(|()| self.records.each_met(least))
    }
}

impl fmt::Display for ManifoldCases {
    fn fmt(&self, lines: &mut fmt::Formatter) -> fmt::Result {
        self.maps.fmt(lines)?;
        self.records.fmt(lines)
    }
}

/// How many jets each manifold has.
fn sizes(masks: &[u32; MANIFOLDS]) -> [u32; MANIFOLDS] {
    masks.map(u32::count_ones)
}

/// The byte in which the bits of these manifolds are set.
fn manifolds(is_one: impl Fn(usize) -> bool) -> u8 {
    (0..MANIFOLDS).filter(|manifold| is_one(*manifold)).map(|manifold| 1 << manifold).sum()
}

/// The valves that a record is compared with: of a path that is back, those of the good copy.
fn remembered(before: &JetString) -> u32 {
    if before.path_fault {
        before.good_valves
    } else {
        before.valves
    }
}

/// A jet that was good fails by the closing alone: it stands in the saved set.
fn closes(manifold: usize, before: &JetString, valves: u8, after: &JetString) -> bool {
    let good = before.word(|jet| jet.is_mapped() && !jet.failed);
    let failed = |jet: &Jet| jet.failed && jet.saved[manifold] && jet.manifolds[manifold];
    bit(remembered(before), manifold) && !bit(valves.into(), manifold) && after.word(failed) & good != 0
}

/// A saved jet that was failed is good, and no re-enable made it so.
fn opens(manifold: usize, before: &JetString, valves: u8, after: &JetString) -> bool {
    let failed = before.reported_fail_word();
    let good = |jet: &Jet| !jet.failed && jet.saved[manifold] && !jet.re_enabled;
    !bit(remembered(before), manifold) && bit(valves.into(), manifold) && after.word(good) & failed != 0
}
