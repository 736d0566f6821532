//! How often halls handed in met each case, so that one can see what they tried.

use crate::hall::{Hall, BOTH_WAYS, NOTHING_SETTLED};
use crate::jet::{bit, leaks, Jet, ALL_MANIFOLDS, MANIFOLDS};
use crate::jet_string::JetString;
use crate::record::{Record, StringMajor};

/// Strings, manifolds and jets are counted at taken records whose path bit is clear, unless said otherwise.
#[derive(Clone, Debug, Default)]
pub struct ForeignCases {
    pub halls: u64,
    pub with_overlapping_masks: u64,
    pub with_held_bytes: u64,
    pub with_a_claim_above_618: u64,
    pub calls: u64,
    pub answers_0_to_5: [u64; 6],
    pub answers_7: u64,
    pub nothing_settled: u64,
    pub majors_taken: u64,
    pub over_a_gap: u64,
    pub over_a_missed_major: u64,
    pub strings_with_path_bit: u64,
    /// A fault was remembered, and the bit is clear.
    pub strings_recovered: u64,
    pub strings_with_bits_of_jets_in_no_mask: u64,
    /// Whatever the path bit.
    pub strings_with_high_valve_bits: u64,
    pub strings_with_high_close_bits: u64,
    pub manifolds_closed: u64,
    pub manifolds_opened: u64,
    /// A failed jet that the mask does not name stands in the saved set.
    pub opened_with_saved_beyond_mask: u64,
    /// A jet of two manifolds that both move.
    pub jets_moved_twice: u64,
    pub failed_off: u64,
    pub inhibited: u64,
    pub re_enabled: u64,
    /// Behind a valve that the record has closed.
    pub re_enabled_in_vain: u64,
    /// Requests for jets in no mask.
    pub named_in_vain: u64,
    pub leaking: u64,
    pub failed_on: u64,
    pub close_bits_gained: u64,
    pub close_bits_lost: u64,
}

impl ForeignCases {
    /// One call's answer.
    pub fn add(&mut self, answer: u8) {
        self.calls += 1;
        match answer {
            BOTH_WAYS => self.answers_7 += 1,
            NOTHING_SETTLED => self.nothing_settled += 1,
            _ => self.answers_0_to_5[usize::from(answer)] += 1,
        }
    }

    /// The hall before a record that is taken, the record, and the hall after it.
    pub fn add_taken(&mut self, before: &Hall, record: &Record, after: &Hall) {
        self.majors_taken += u64::from(record.major.is_some());
        self.over_a_gap += u64::from(after.n > before.n + 1);
        self.over_a_missed_major += u64::from((after.n - 1) / 25 > before.n / 25);
        for s in 0..4 {
            let (before, after) = (&before.strings[s], &after.strings[s]);
            self.strings_with_high_valve_bits +=
                u64::from((before.valves | before.good_valves) > ALL_MANIFOLDS);
            self.strings_with_high_close_bits += u64::from(before.close > ALL_MANIFOLDS);
            if bit(record.path.into(), s) {
                self.strings_with_path_bit += 1;
                continue;
            }
            self.strings_recovered += u64::from(before.path_fault);
            self.strings_with_bits_of_jets_in_no_mask +=
                u64::from(before.jets.iter().any(has_bits_in_no_mask));
            self.add_manifolds(before, record.strings[s].valves.into());
            self.failed_off += count(&after.jets, |jet| jet.off_slots == [true; 3]);
            if let Some(major) = &record.major {
                self.add_requests(before, record.strings[s].valves.into(), &major.strings[s]);
                self.leaking += count(&after.jets, |jet| {
                    jet.is_mapped() && leaks(major.strings[s].temperatures[jet.number])
                });
                self.failed_on += count(&after.jets, |jet| jet.recheck);
                self.close_bits_gained += u64::from((after.close & !before.close).count_ones());
                self.close_bits_lost += u64::from((before.close & !after.close).count_ones());
            }
        }
    }

    fn add_manifolds(&mut self, before: &JetString, now: u32) {
        let lost = before.path_fault;
        let remembered = if lost { before.good_valves } else { before.valves };
        let moves = |manifold: &usize| bit(remembered ^ now, *manifold);
        for manifold in (0..MANIFOLDS).filter(moves) {
            if bit(remembered, manifold) {
                self.manifolds_closed += 1;
                continue;
            }
            self.manifolds_opened += 1;
            let beyond = |jet: &Jet| {
                let (failed, saved) =
                    if lost { (jet.good_failed, jet.good_saved) } else { (jet.failed, jet.saved) };
                failed && saved[manifold] && !jet.manifolds[manifold]
            };
            self.opened_with_saved_beyond_mask += u64::from(before.jets.iter().any(beyond));
        }
        let twice =
            |jet: &Jet| (0..MANIFOLDS).filter(moves).filter(|manifold| jet.manifolds[*manifold]).count() > 1;
        self.jets_moved_twice += count(&before.jets, twice);
    }

    fn add_requests(&mut self, before: &JetString, valves: u32, major: &StringMajor) {
        for jet in &before.jets {
            let is_named = [major.inhibit, major.re_enable].map(|word| bit(word, jet.number));
            let place = match is_named {
                [false, false] => continue,
                _ if !jet.is_mapped() => &mut self.named_in_vain,
                [true, true] => unreachable!("the record would not be taken"),
                [true, false] => &mut self.inhibited,
                [false, true] if jet.is_behind_closed(valves) => &mut self.re_enabled_in_vain,
                [false, true] => &mut self.re_enabled,
            };
            *place += 1;
        }
    }
}

fn count(jets: &[Jet], test: impl Fn(&Jet) -> bool) -> u64 {
    jets.iter().filter(|jet| test(jet)).count() as u64
}

fn has_bits_in_no_mask(jet: &Jet) -> bool {
    let bits = [
        &jet.off_slots[..],
        &jet.on_slots,
        &jet.saved,
        &[jet.failed, jet.recheck, jet.inhibited, jet.re_enabled],
    ];
    !jet.is_mapped() && bits.concat().contains(&true)
}
