//! What a record asks for the jets of a string, with the valves that they are behind, and what became of it.

use crate::hall::{Hall, TAKEN};
use crate::jet::{bit, Jet, MANIFOLDS};
use crate::jet_string::JetString;
use crate::record::Record;
use std::array;

/// Words have a bit for each mapped jet. A jet is behind a closed valve if that of one of its manifolds is closed.
#[derive(Clone, Debug)]
pub struct Behind {
    pub s: usize,
    pub answer: u8,
    pub d: u16,
    /// The record is taken, and the string's path bit is clear.
    pub heard: bool,
    /// By such a record the path is back.
    pub path_is_back: bool,
    pub masks: [u32; MANIFOLDS],
    pub valves: u8,
    pub inhibit: u32,
    pub re_enable: u32,
    /// Behind a valve that is closed by this record, by what it is compared with, and in the good copy before it.
    pub closed: u32,
    pub was_closed: u32,
    pub good_closed: u32,
    /// In the saved set of a manifold of theirs after the record, which steps 5 to 8 leave as it is.
    pub saved: u32,
    pub was_inhibited: u32,
    pub was_re_enabled: u32,
    pub failed: u32,
    pub inhibited: u32,
    pub re_enabled: u32,
    /// In the recheck word, and bad in this record.
    pub asks_to_close: u32,
    pub close_gained: u8,
    /// Of which a re-enable was ignored since their valve closed, by records before this one.
    pub ignored_before: u32,
    /// Manifolds for which the record has a re-enable done in another string.
    pub done_elsewhere: u8,
}

impl Behind {
    /// A record, its answer, and the hall before it and after it. What other records and strings have is not there yet.
    pub fn of(s: usize, answer: u8, before: &Hall, record: &Record, after: &Hall) -> Behind {
        let n = u64::from(before.n);
        let (before, after) = (&before.strings[s], &after.strings[s]);
        let d = record.wire.wrapping_sub(n as u16);
        let heard = answer == TAKEN && !bit(record.path.into(), s);
        let path_is_back = heard && before.path_fault;
        let row_goes_on = heard && !path_is_back && (n + u64::from(d) - 1) / 25 == n / 25;
        let mapped = before.word(Jet::is_mapped);
        let jets = |string: &JetString, is_one: fn(&Jet) -> bool| mapped & string.word(is_one);
        let behind = |valves: u32| before.word(|jet| jet.is_behind_closed(valves));
        let major = record.major.as_ref().map(|major| major.strings[s]);
        let valves = record.strings[s].valves;
        Behind {
            s,
            answer,
            d,
            heard,
            path_is_back,
            masks: array::from_fn(|manifold| before.word(|jet| jet.manifolds[manifold])),
            valves,
            inhibit: mapped & major.map_or(0, |major| major.inhibit),
            re_enable: mapped & major.map_or(0, |major| major.re_enable),
            closed: behind(valves.into()),
            was_closed: behind(if path_is_back { before.good_valves } else { before.valves }),
            good_closed: behind(before.good_valves),
            saved: jets(after, is_saved),
            was_inhibited: jets(before, |jet| jet.inhibited),
            was_re_enabled: jets(before, |jet| jet.re_enabled),
            failed: jets(after, |jet| jet.failed),
            inhibited: jets(after, |jet| jet.inhibited),
            re_enabled: jets(after, |jet| jet.re_enabled),
            asks_to_close: match row_goes_on {
                true => jets(before, |jet| jet.recheck) & jets(after, |jet| jet.on_slots[0]),
                false => 0,
            },
            close_gained: after.close_byte() & !before.close_byte(),
            ignored_before: 0,
            done_elsewhere: 0,
        }
    }

    /// The re-enables that step 5 ignores.
    pub fn ignored(&self) -> u32 {
        self.if_heard(self.re_enable & self.closed)
    }

    /// Those that it does.
    pub fn done(&self) -> u32 {
        self.if_heard(self.re_enable & !self.closed)
    }

    pub fn if_heard(&self, jets: u32) -> u32 {
        if self.heard {
            jets
        } else {
            0
        }
    }

    /// The manifolds that have one of these jets.
    pub fn manifolds_of(&self, jets: u32) -> u8 {
        (0..MANIFOLDS)
            .filter(|manifold| self.masks[*manifold] & jets != 0)
            .map(|manifold| 1 << manifold)
            .sum()
    }

    /// The manifolds of a jet that stands in several masks, lowest first.
    pub fn of_several(&self, jet: usize) -> Option<Vec<usize>> {
        let manifolds: Vec<usize> =
            (0..MANIFOLDS).filter(|manifold| bit(self.masks[*manifold], jet)).collect();
        Some(manifolds).filter(|manifolds| manifolds.len() > 1)
    }
}

fn is_saved(jet: &Jet) -> bool {
    (0..MANIFOLDS).any(|manifold| jet.manifolds[manifold] && jet.saved[manifold])
}
