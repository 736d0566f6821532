//! Four strings of 32 jets on packed words, and the nitrogen banks.
//!
//! A word of a string lies here as it lies in records and reports, its bytes not turned: the rules are on bits alone,
//! the same for each. The words of a kind lie side by side, so that the compiler takes all strings at once where
//! nothing is out of the ordinary; what is, is seen to aside.

use crate::leaks::{any_leaks, leaking};
use crate::record::*;

const STRINGS: usize = 4;
/// Manifolds of a string; a byte has a bit for each.
const MANIFOLDS: usize = 8;
const ALL_OPEN: u8 = ((1 << MANIFOLDS) - 1) as u8;
const MASK_LENGTH: usize = 4;
pub const MASKS_LENGTH: usize = STRINGS * MANIFOLDS * MASK_LENGTH;
const MAJOR_EVERY: u32 = 25;
const MOST_APART: u16 = 16;
pub const REPORT_LENGTH: usize = 40;

const TAKEN: u8 = 0;
const STALE: u8 = 1;
const REPEAT: u8 = 2;
const COUNT_ENDED: u8 = 3;
const WRONG_KIND: u8 = 4;
const BOTH_WAYS: u8 = 7;

pub type Report = [u8; REPORT_LENGTH];

/// Of each string a word.
type Words = [u32; STRINGS];

pub struct Hall {
    n: u32,
    masks: [[u32; MANIFOLDS]; STRINGS],
    mapped: Words,
    /// Is any jet mapped?
    has_jets: bool,
    /// Bit s set: the path of string s is lost.
    lost: u8,
    standing: Standing,
    good: Standing,
    /// The two newest off slots: no later rule reads the third.
    off: [Words; 2],
    on: Words,
    recheck: Words,
    inhibit: Words,
    reenable: Words,
    close: [u8; STRINGS],
    /// The next report, but for its answer and number, and the fail words that it shows.
    report: Report,
    shown: Words,
}

#[derive(Clone, Copy)]
struct Standing {
    fail: Words,
    valves: [u8; STRINGS],
    saved: [[u32; MANIFOLDS]; STRINGS],
}

impl Hall {
    /// A fresh hall over the map, unless two masks of a string share a jet.
    pub fn over(masks: &[u8]) -> Option<Hall> {
        let mask = |s, i| word(masks, MASK_LENGTH * (MANIFOLDS * s + i));
        let masks: [[u32; MANIFOLDS]; STRINGS] = std::array::from_fn(|s| std::array::from_fn(|i| mask(s, i)));
        let mapped = masks.map(|masks| masks.iter().fold(0, |mapped, mask| mapped | mask));
        let overlap = masks.iter().zip(mapped).any(|(masks, mapped)| {
            masks.iter().map(|mask| mask.count_ones()).sum::<u32>() != mapped.count_ones()
        });
        let fresh =
            Standing { fail: [0; STRINGS], valves: [ALL_OPEN; STRINGS], saved: [[0; MANIFOLDS]; STRINGS] };
        let mut report = [0; REPORT_LENGTH];
        report[..2].copy_from_slice(&[0x52, 0x52]);
        (!overlap).then_some(Hall {
            n: 0,
            masks,
            mapped,
            has_jets: mapped != [0; STRINGS],
            lost: 0,
            standing: fresh,
            good: fresh,
            off: [[0; STRINGS]; 2],
            on: [0; STRINGS],
            recheck: [0; STRINGS],
            inhibit: [0; STRINGS],
            reenable: [0; STRINGS],
            close: [0; STRINGS],
            report,
            shown: [0; STRINGS],
        })
    }

    #[inline(always)]
    pub fn settle_minor(&mut self, record: &MinorRecord, report: &mut Report) {
        self.settle(record, None, report);
    }

    /// By itself: a minor record, of which there are 24 times as many, then has no more to carry than its own.
    #[inline(never)]
    pub fn settle_major(&mut self, record: &MajorRecord, report: &mut Report) {
        let minor = record.first_chunk().expect("a major record is longer");
        self.settle(minor, Some(record), report);
    }

    /// Takes or refuses a record, the part that both kinds have and the whole of a major one, and reports.
    #[inline(always)]
    fn settle(&mut self, minor: &MinorRecord, major: Option<&MajorRecord>, report: &mut Report) {
        let answer = self.take(minor, major);
        // Most records change no fail word.
        if self.standing.fail != self.shown {
            self.show_strings();
        }
        *report = self.report;
        report[2] = answer;
        report[3..7].copy_from_slice(&self.n.to_be_bytes());
    }

    #[inline(always)]
    fn take(&mut self, minor: &MinorRecord, major: Option<&MajorRecord>) -> u8 {
        let d = match wire(minor).wrapping_sub(self.n as u16) {
            0 => return REPEAT,
            32_768.. => return STALE,
            d => u32::from(d),
        };
        let Some(n) = self.n.checked_add(d) else { return COUNT_ENDED };
        if n.is_multiple_of(MAJOR_EVERY) != major.is_some() {
            return WRONG_KIND;
        }
        let asking = major.filter(|record| asks(record));
        if asking.is_some_and(|record| self.named_both_ways(record)) {
            return BOTH_WAYS;
        }
        if d > 1 {
            self.forget(n);
        }
        self.n = n;
        self.step(minor);
        if let Some(record) = asking {
            self.ask(record);
        }
        if let Some(record) = major {
            self.step_major(record);
        }
        TAKEN
    }

    /// Is a mapped jet of any string, its path failed or not, to be inhibited and re-enabled?
    #[cold]
    fn named_both_ways(&self, record: &MajorRecord) -> bool {
        self.mapped.iter().enumerate().any(|(s, mapped)| {
            let (inhibit, reenable) = requests(record, s);
            mapped & inhibit & reenable != 0
        })
    }

    /// Step 2 where cycles before `n` are missed. A string without its path may lose these words too: nothing reads
    /// them before it loses them by step 1.
    #[cold]
    fn forget(&mut self, n: u32) {
        self.off = [[0; STRINGS]; 2];
        if self.n / MAJOR_EVERY < (n - 1) / MAJOR_EVERY {
            self.on = [0; STRINGS];
            self.recheck = [0; STRINGS];
        }
    }

    /// Steps 1, 3 and 4.
    #[inline(always)]
    fn step(&mut self, record: &MinorRecord) {
        let moved = (0..STRINGS).any(|s| valves(record, s) != self.standing.valves[s]);
        if path(record) | self.lost != 0 || moved {
            return self.step_aside(record);
        }
        self.off_failures(record);
        self.hold_inhibits();
    }

    /// Steps 1, 3 and 4 where a path is lost or back, or a valve has moved.
    #[cold]
    fn step_aside(&mut self, record: &MinorRecord) {
        self.change_paths(path(record));
        let before = self.standing.fail;
        self.off_failures(record);
        for s in strings_of(!self.lost) {
            self.move_valves(valves(record, s), s);
        }
        self.hold_inhibits();
        self.keep_lost(before);
    }

    /// Step 1: a string whose path comes back goes on from its good copy.
    fn change_paths(&mut self, path: u8) {
        for s in strings_of(self.lost & !path) {
            self.standing.copy(&self.good, s);
            self.off[0][s] = 0;
            self.off[1][s] = 0;
            self.on[s] = 0;
            self.recheck[s] = 0;
        }
        self.lost = path;
    }

    /// A string without its path keeps its fail word. Its slots need not be kept: they become 0 when it is back.
    fn keep_lost(&mut self, fail: Words) {
        for s in strings_of(self.lost) {
            self.standing.fail[s] = fail[s];
        }
    }

    /// Step 3.
    #[inline(always)]
    fn off_failures(&mut self, record: &MinorRecord) {
        let newest = each(|s| self.mapped[s] & commanded(record, s) & !pressure(record, s));
        let [newer, older] = self.off;
        let fail = each(|s| self.standing.fail[s] | newest[s] & newer[s] & older[s]);
        self.standing.fail = each(|s| fail[s] & !self.reenable[s]);
        self.off = [newest, newer];
    }

    /// The end of step 4.
    #[inline(always)]
    fn hold_inhibits(&mut self) {
        self.standing.fail = each(|s| self.standing.fail[s] | self.inhibit[s]);
    }

    /// Step 4, but for the inhibits.
    fn move_valves(&mut self, valves: u8, s: usize) {
        let fail = &mut self.standing.fail[s];
        let remembered = self.standing.valves[s];
        for (i, (&mask, saved)) in self.masks[s].iter().zip(&mut self.standing.saved[s]).enumerate() {
            match (remembered >> i & 1, valves >> i & 1) {
                (1, 0) => {
                    *saved = mask & !*fail;
                    *fail |= mask;
                    self.reenable[s] &= !mask;
                }
                (0, 1) => *fail &= !*saved,
                _ => {}
            }
        }
        self.standing.valves[s] = valves;
    }

    /// Step 5. No jet is named both ways; behind a closed valve none is re-enabled.
    #[cold]
    fn ask(&mut self, record: &MajorRecord) {
        for s in strings_of(!self.lost) {
            let (inhibit, reenable) = requests(record, s);
            let inhibit = self.mapped[s] & inhibit;
            let reenable = self.mapped[s] & reenable & !self.behind_closed_valves(s);
            self.inhibit[s] = (self.inhibit[s] | inhibit) & !reenable;
            self.reenable[s] = (self.reenable[s] | reenable) & !inhibit;
            self.standing.fail[s] = (self.standing.fail[s] | inhibit) & !reenable;
            self.close[s] &= !drops(record, s);
        }
        self.show_strings();
    }

    fn behind_closed_valves(&self, s: usize) -> u32 {
        let closed = |i: &usize| self.standing.valves[s] >> i & 1 == 0;
        (0..MANIFOLDS).filter(closed).fold(0, |jets, i| jets | self.masks[s][i])
    }

    /// Steps 6 to 8, and the banks.
    #[inline(always)]
    fn step_major(&mut self, record: &MajorRecord) {
        if self.lost == 0 {
            let closing = self.on_failures(record);
            self.good = self.standing;
            if closing != [0; STRINGS] {
                self.close_manifolds(closing);
            }
        } else {
            self.step_major_aside(record);
        }
        self.weigh(record);
    }

    /// Steps 6 to 8 where a path is lost.
    #[cold]
    fn step_major_aside(&mut self, record: &MajorRecord) {
        let before = self.standing.fail;
        let mut closing = self.on_failures(record);
        self.keep_lost(before);
        strings_of(self.lost).for_each(|s| closing[s] = 0);
        strings_of(!self.lost).for_each(|s| self.good.copy(&self.standing, s));
        self.close_manifolds(closing);
    }

    /// Steps 6 and 7. Gives the jets whose manifolds have to be closed.
    #[inline(always)]
    fn on_failures(&mut self, record: &MajorRecord) -> Words {
        let temperatures = temperatures(record);
        let mut leaks = [0; STRINGS];
        // A leak is rare, and looked for in all strings at once.
        if self.has_jets && any_leaks(temperatures.as_flattened()) {
            leaks = leaks_of(temperatures);
        }
        let bad = each(|s| self.mapped[s] & !commanded(record, s) & (driver(record, s) | leaks[s]));
        let held = each(|s| bad[s] & !self.reenable[s]);
        let closing = each(|s| held[s] & self.recheck[s]);
        self.recheck = each(|s| held[s] & self.on[s]);
        self.on = bad;
        self.standing.fail = each(|s| self.standing.fail[s] | self.recheck[s]);
        closing
    }

    /// Step 6 for the jets that ask for it.
    #[cold]
    fn close_manifolds(&mut self, jets: Words) {
        for (s, jets) in jets.into_iter().enumerate() {
            for (i, mask) in self.masks[s].iter().enumerate() {
                self.close[s] |= u8::from(mask & jets != 0) << i;
            }
        }
        self.show_strings();
    }

    fn weigh(&mut self, record: &MajorRecord) {
        let mut balance = 0;
        for (module, [fuel, oxidizer]) in quantities(record).into_iter().enumerate() {
            balance |= u8::from(fuel.abs_diff(oxidizer) > MOST_APART) << module;
            balance |= u8::from(oxidizer < fuel) << (4 + module);
            let (lesser, difference) = (28 + 2 * module, 34 + 2 * module);
            self.report[lesser..][..2].copy_from_slice(&fuel.min(oxidizer).to_be_bytes());
            self.report[difference..][..2].copy_from_slice(&fuel.wrapping_sub(oxidizer).to_be_bytes());
        }
        self.report[27] = balance;
    }

    /// Writes fail words and close bytes into the report.
    #[cold]
    fn show_strings(&mut self) {
        for (s, part) in self.report[7..27].chunks_exact_mut(5).enumerate() {
            part[..4].copy_from_slice(&self.standing.fail[s].to_ne_bytes());
            part[4] = self.close[s];
        }
        self.shown = self.standing.fail;
    }
}

impl Standing {
    /// Becomes another in one string.
    fn copy(&mut self, other: &Standing, s: usize) {
        self.fail[s] = other.fail[s];
        self.valves[s] = other.valves[s];
        self.saved[s] = other.saved[s];
    }
}

#[cold]
#[inline(never)]
fn leaks_of(temperatures: &[Temperatures]) -> Words {
    each(|s| leaking(&temperatures[s]).to_be())
}

/// A word for each string.
#[inline(always)]
fn each(word: impl Fn(usize) -> u32) -> Words {
    std::array::from_fn(word)
}

/// The strings whose bit is set.
fn strings_of(bits: u8) -> impl Iterator<Item = usize> {
    (0..STRINGS).filter(move |s| bits >> s & 1 == 1)
}
