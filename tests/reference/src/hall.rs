//! The four strings, the cycle count and the modules' balance; which answer a record gets.

use crate::jet::MANIFOLDS;
use crate::jet_string::{Gap, JetString};
use crate::record::{Major, Record};

pub const TAKEN: u8 = 0;
pub const STALE: u8 = 1;
pub const REPEAT: u8 = 2;
pub const COUNT_ENDED: u8 = 3;
pub const WRONG_KIND: u8 = 4;
pub const OUTBOX_SHORT: u8 = 5;
pub const MAP: u8 = 6;
pub const BOTH_WAYS: u8 = 7;
/// No answer of the table: a call that settles nothing says so.
pub const NOTHING_SETTLED: u8 = 255;

/// Four strings of a mask for each manifold.
pub type Masks = [[u32; MANIFOLDS]; 4];
/// The map over which a monitor goes on whose own is refused.
pub const EMPTY_MAP: Masks = [[0; MANIFOLDS]; 4];

#[derive(Clone, Debug, PartialEq, Eq)]
pub struct Hall {
    pub n: u32,
    pub strings: [JetString; 4],
    pub modules: [Module; 3],
}

#[derive(Clone, Copy, Debug, Default, PartialEq, Eq)]
pub struct Module {
    pub out_of_balance: bool,
    pub oxidizer_is_lesser: bool,
    pub lesser: u16,
    /// Fuel less oxidizer, in tenths of a percent (document 02, order 10).
    pub difference: i16,
}

/// Two masks of one string share a bit.
pub fn overlap(masks: &Masks) -> bool {
    masks.iter().any(|string| (0..MANIFOLDS).any(|i| (0..i).any(|j| string[i] & string[j] != 0)))
}

impl Hall {
    pub fn fresh(masks: &Masks) -> Hall {
        Hall { n: 0, strings: masks.map(JetString::fresh), modules: [Module::default(); 3] }
    }

    /// Settles a record. On any answer but 0 the hall is as before.
    pub fn settle(&mut self, record: &Record) -> u8 {
        let old = u64::from(self.n);
        let wire = u64::from(record.wire);
        let d = (wire + 65_536 - old % 65_536) % 65_536;
        if d >= 32_768 {
            return STALE;
        }
        if d == 0 {
            return REPEAT;
        }
        let new = old + d;
        if new > 4_294_967_295 {
            return COUNT_ENDED;
        }
        if (new % 25 == 0) != record.major.is_some() {
            return WRONG_KIND;
        }
        if self.names_both_ways(record) {
            return BOTH_WAYS;
        }

        let major_missed = (old + 1..new).any(|between| between % 25 == 0);
        let gap = Gap { cycle_missed: d > 1, major_missed };
        for (s, string) in self.strings.iter_mut().enumerate() {
            let path_failed = (record.path >> s) % 2 == 1;
            let major = record.major.as_ref().map(|major| &major.strings[s]);
            string.cycle(path_failed, &record.strings[s], major, gap);
        }
        if let Some(major) = &record.major {
            self.weigh(major);
        }
        self.n = new as u32;
        TAKEN
    }

    /// A major record names a jet both ways, whatever the path bits.
    fn names_both_ways(&self, record: &Record) -> bool {
        let majors = record.major.iter().flat_map(|major| &major.strings);
        self.strings.iter().zip(majors).any(|(string, major)| string.names_both_ways(major))
    }

    /// Once per major cycle, whatever the path bits.
    fn weigh(&mut self, major: &Major) {
        for (module, [fuel, oxidizer]) in self.modules.iter_mut().zip(major.quantities) {
            *module = Module {
                out_of_balance: fuel.abs_diff(oxidizer) > 16,
                oxidizer_is_lesser: oxidizer < fuel,
                lesser: fuel.min(oxidizer),
                // -1,000 to 1,000 by any feed. Of quantities above 1,000, handed in, what is left modulo 65,536.
                difference: (i32::from(fuel) - i32::from(oxidizer)) as i16,
            };
        }
    }
}
