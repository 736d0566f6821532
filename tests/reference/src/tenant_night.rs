//! What became of one night with a tenant, as the cases count it.

use crate::behind::Behind;
use crate::feed::{play, MASKS_LENGTH};
use crate::hall::{Hall, BOTH_WAYS, TAKEN};
use crate::jet::{bit, leaks, Jet};
use crate::record::Record;
use crate::report::Report;
use crate::tenant::Tenant;

/// How many things that can befall a tenant are told apart, and how many ways to name jets both ways.
pub const OWN_EVENTS: usize = 16;
pub const BOTH_WAYS_OF: usize = 4;

#[derive(Clone, Debug)]
pub struct Night {
    pub reports: Vec<Report>,
    pub taken: Vec<Record>,
    /// Bytes of no record that settled.
    pub lost: usize,
    /// Close bit dropped, set again after that, drop lost; path fails, is back; valve closes on good jets, brings
    /// them back; inhibits, re-enables done, ignored; jets fail off, by the driver, by a leak, by one below zero;
    /// cycles missed, a major one missed.
    pub own: [bool; OWN_EVENTS],
    /// Answers 7 for a jet of a neighbour, of another string, of the tenant; for none of the tenant, and the cycle is taken.
    pub both_ways_of: [bool; BOTH_WAYS_OF],
    /// A report of a record refused shows a failed jet of the tenant's, its close bit.
    pub shown_by_refused: [bool; 2],
}

impl Night {
    pub fn of(input: &[u8], tenant: &Tenant) -> Night {
        let mut night = Night {
            reports: Vec::new(),
            taken: Vec::new(),
            lost: input.len() - MASKS_LENGTH,
            own: [false; OWN_EVENTS],
            both_ways_of: [false; BOTH_WAYS_OF],
            shown_by_refused: [false; 2],
        };
        // The cycle of a record answered 7 that names none of the tenant's jets so.
        let mut asked_again = None;
        play(input, |answer, before, record, after| {
            night.lost -= record.bytes().len();
            let report = Report::of(answer, after);
            let (fail, close) = tenant.sees(&report.bytes());
            match answer {
                TAKEN => {
                    night.befalls(tenant, before, record, after);
                    night.both_ways_of[3] |= asked_again == Some(after.n);
                    night.taken.push(record.clone());
                }
                _ => {
                    night.shown_by_refused[0] |= fail != 0;
                    night.shown_by_refused[1] |= close;
                }
            }
            asked_again = None;
            if answer == BOTH_WAYS {
                let is_own = night.named_both_ways(tenant, before, record);
                let d = record.wire.wrapping_sub(before.n as u16);
                asked_again = Some(before.n + u32::from(d)).filter(|_| !is_own);
            }
            night.reports.push(report);
        });
        night
    }

    /// Reports of records that are taken.
    pub fn of_taken(&self) -> impl Iterator<Item = &Report> {
        self.reports.iter().filter(|report| report.answer == TAKEN)
    }

    pub fn refused(&self, answer: u8) -> usize {
        self.reports.iter().filter(|report| report.answer == answer).count()
    }

    /// A record that is taken, and what it brings the tenant.
    fn befalls(&mut self, tenant: &Tenant, before: &Hall, record: &Record, after: &Hall) {
        let Tenant { string: s, manifold, mask } = *tenant;
        let behind = Behind::of(s, TAKEN, before, record, after);
        let (n, d) = (u64::from(before.n), u64::from(behind.d));
        let (before, after) = (&before.strings[s], &after.strings[s]);
        let had = bit(before.close, manifold);
        let has = bit(after.close, manifold);
        let asks = record.major.as_ref().is_some_and(|major| bit(major.strings[s].drops.into(), manifold));
        let dropped_before = self.own[0];
        let was_failed = before.word(|jet| jet.failed) & mask;
        let fails = behind.if_heard(behind.failed & !was_failed & mask);
        let opens = bit(record.strings[s].valves.into(), manifold);
        let moves = behind.heard && !behind.path_is_back && bit(before.valves, manifold) != opens;
        let by_recheck = fails & after.word(|jet| jet.recheck);
        let is_cold = |jet: &Jet, words: fn([u16; 2]) -> bool| {
            record.major.as_ref().is_some_and(|major| words(major.strings[s].temperatures[jet.number]))
        };
        let drivers = record.strings[s].driver;
        let events = [
            had && !has,
            !had && has && dropped_before,
            had && asks && !behind.heard,
            !behind.heard,
            behind.path_is_back,
            moves && !opens && fails != 0,
            moves && opens && was_failed & !behind.failed != 0,
            behind.if_heard(behind.inhibit & mask) != 0,
            behind.done() & mask != 0,
            behind.ignored() & mask != 0,
            fails & after.word(|jet| jet.off_slots == [true; 3]) != 0,
            by_recheck & drivers != 0,
            by_recheck & !drivers & after.word(|jet| is_cold(jet, leaks)) != 0,
            by_recheck & !drivers & after.word(|jet| is_cold(jet, is_below_zero)) != 0,
            d > 1,
            (n + d - 1) / 25 > n / 25,
        ];
        for (own, event) in self.own.iter_mut().zip(events) {
            *own |= event;
        }
    }

    /// Says whether one of them is the tenant's.
    fn named_both_ways(&mut self, tenant: &Tenant, hall: &Hall, record: &Record) -> bool {
        let mut is_own = false;
        for (s, major) in record.major.iter().flat_map(|major| &major.strings).enumerate() {
            let named = hall.strings[s].word(Jet::is_mapped) & major.inhibit & major.re_enable;
            if s == tenant.string {
                is_own = named & tenant.mask != 0;
                self.both_ways_of[0] |= named & !tenant.mask != 0;
                self.both_ways_of[2] |= is_own;
            } else {
                self.both_ways_of[1] |= named != 0;
            }
        }
        is_own
    }
}

/// A word below zero alone makes it a leak.
fn is_below_zero(words: [u16; 2]) -> bool {
    words.iter().any(|word| (*word as i16) < 0) && !words.iter().any(|word| (0..64).contains(word))
}
