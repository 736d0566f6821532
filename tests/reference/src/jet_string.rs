//! One cycle of a string, step by step.

use crate::jet::{bit, leaks, Jet, ALL_MANIFOLDS, MANIFOLDS};
use crate::record::{StringMajor, StringWords};

/// What was missed between the old n and the new.
#[derive(Clone, Copy, Debug)]
pub struct Gap {
    pub cycle_missed: bool,
    pub major_missed: bool,
}

#[derive(Clone, Debug, PartialEq, Eq)]
pub struct JetString {
    /// All 32, jet 0 first.
    pub jets: Vec<Jet>,
    pub path_fault: bool,
    /// Bit i: manifold i is remembered as open. The bits above name nothing.
    pub valves: u32,
    pub good_valves: u32,
    /// Bit i: manifold i is to be closed. The bits above name nothing.
    pub close: u32,
}

impl JetString {
    pub fn fresh(masks: [u32; MANIFOLDS]) -> JetString {
        let jet = |number| Jet { number, manifolds: masks.map(|mask| bit(mask, number)), ..Jet::default() };
        let jets = (0..32).map(jet).collect();
        JetString { jets, path_fault: false, valves: ALL_MANIFOLDS, good_valves: ALL_MANIFOLDS, close: 0 }
    }

    /// The word in which the bits of these jets are set.
    pub fn word(&self, is_set: impl Fn(&Jet) -> bool) -> u32 {
        self.jets.iter().filter(|jet| is_set(jet)).map(|jet| 1 << jet.number).sum()
    }

    /// Bits of jets in no mask are 0 in reports.
    pub fn reported_fail_word(&self) -> u32 {
        self.word(|jet| jet.failed && jet.is_mapped())
    }

    /// The low byte of the close word.
    pub fn close_byte(&self) -> u8 {
        (self.close % 256) as u8
    }

    /// The inhibit and the re-enable bit of some jet are set. Jets in no mask are ignored.
    pub fn names_both_ways(&self, major: &StringMajor) -> bool {
        let both = |jet: &Jet| bit(major.inhibit, jet.number) && bit(major.re_enable, jet.number);
        self.jets.iter().any(|jet| jet.is_mapped() && both(jet))
    }

    pub fn cycle(&mut self, path_failed: bool, words: &StringWords, major: Option<&StringMajor>, gap: Gap) {
        if path_failed {
            self.path_fault = true;
            return;
        }
        if self.path_fault {
            self.path_recovers();
        }
        self.gap(gap);
        self.off_failure(words);
        self.manifolds(words);
        if let Some(major) = major {
            self.requests(major);
            self.drops(major);
            let bad: Vec<bool> = self.jets.iter().map(|jet| is_bad(jet, words, major)).collect();
            self.recheck(&bad);
            self.on_failure(&bad);
            self.take_good_copy();
        }
    }

    /// Step 1, the first record with the bit clear again. Overrides and close byte stay.
    fn path_recovers(&mut self) {
        self.path_fault = false;
        self.valves = self.good_valves;
        for jet in &mut self.jets {
            jet.failed = jet.good_failed;
            jet.saved = jet.good_saved;
            jet.off_slots = [false; 3];
            jet.on_slots = [false; 2];
            jet.recheck = false;
        }
    }

    /// Step 2.
    fn gap(&mut self, gap: Gap) {
        for jet in &mut self.jets {
            if gap.cycle_missed {
                jet.off_slots = [false; 3];
            }
            if gap.major_missed {
                jet.on_slots = [false; 2];
                jet.recheck = false;
            }
        }
    }

    /// Step 3.
    fn off_failure(&mut self, words: &StringWords) {
        for jet in &mut self.jets {
            let newest = commanded(jet, words) && !bit(words.pressure, jet.number);
            jet.off_slots = [newest, jet.off_slots[0], jet.off_slots[1]];
            if jet.off_slots == [true; 3] {
                jet.failed = true;
            }
            if jet.re_enabled {
                jet.failed = false;
            }
        }
    }

    /// Step 4, lowest first: where masks overlap, a manifold sees what the lower ones left.
    fn manifolds(&mut self, words: &StringWords) {
        let now = u32::from(words.valves);
        for manifold in 0..MANIFOLDS {
            if bit(self.valves, manifold) && !bit(now, manifold) {
                self.closes(manifold);
            }
            if !bit(self.valves, manifold) && bit(now, manifold) {
                self.opens(manifold);
            }
        }
        for jet in self.jets.iter_mut().filter(|jet| jet.inhibited) {
            jet.failed = true;
        }
        self.valves = now;
    }

    /// The saved set is the manifold's jets not failed; all its jets fail; their re-enables lapse.
    fn closes(&mut self, manifold: usize) {
        for jet in &mut self.jets {
            let its_jet = jet.manifolds[manifold];
            jet.saved[manifold] = its_jet && !jet.failed;
            if its_jet {
                jet.failed = true;
                jet.re_enabled = false;
            }
        }
    }

    /// The saved set leaves the fail word: all of it, whatever the mask. It stays until the next closing.
    fn opens(&mut self, manifold: usize) {
        for jet in &mut self.jets {
            if jet.saved[manifold] {
                jet.failed = false;
            }
        }
    }

    /// Step 5. Requests for jets in no mask are ignored, and so is a re-enable for a jet "on a manifold remembered
    /// as closed" (document 02, order 8). Of a jet named both ways, which no taken record has, the inhibit is looked
    /// at first.
    fn requests(&mut self, major: &StringMajor) {
        let valves = self.valves;
        for jet in self.jets.iter_mut().filter(|jet| jet.is_mapped()) {
            if bit(major.inhibit, jet.number) {
                jet.inhibited = true;
                jet.re_enabled = false;
                jet.failed = true;
            } else if bit(major.re_enable, jet.number) && !jet.is_behind_closed(valves) {
                jet.re_enabled = true;
                jet.inhibited = false;
                jet.failed = false;
            }
        }
    }

    /// Step 5, close bits (document 02, order 6): "bit i asks to drop manifold i's close bit". Nothing else changes,
    /// and step 6 may set the bit again.
    fn drops(&mut self, major: &StringMajor) {
        for manifold in (0..MANIFOLDS).filter(|manifold| bit(major.drops.into(), *manifold)) {
            self.close &= !(1 << manifold);
        }
    }

    /// Step 6. The close bit stays until it is dropped.
    fn recheck(&mut self, bad: &[bool]) {
        for manifold in 0..MANIFOLDS {
            for (jet, bad) in self.jets.iter().zip(bad) {
                if jet.manifolds[manifold] && jet.recheck && *bad && !jet.re_enabled {
                    self.close |= 1 << manifold;
                }
            }
        }
    }

    /// Step 7.
    fn on_failure(&mut self, bad: &[bool]) {
        for (jet, bad) in self.jets.iter_mut().zip(bad) {
            jet.on_slots = [*bad, jet.on_slots[0]];
            jet.recheck = jet.on_slots == [true; 2] && !jet.re_enabled;
            if jet.recheck {
                jet.failed = true;
            }
        }
    }

    /// Step 8.
    fn take_good_copy(&mut self) {
        self.good_valves = self.valves;
        for jet in &mut self.jets {
            jet.good_failed = jet.failed;
            jet.good_saved = jet.saved;
        }
    }
}

fn commanded(jet: &Jet, words: &StringWords) -> bool {
    jet.is_mapped() && bit(words.commanded, jet.number)
}

/// A commanded jet is never bad; nor is one in no mask.
fn is_bad(jet: &Jet, words: &StringWords, major: &StringMajor) -> bool {
    let driver_on = bit(words.driver, jet.number);
    jet.is_mapped() && !commanded(jet, words) && (driver_on || leaks(major.temperatures[jet.number]))
}
