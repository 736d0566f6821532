//! What is remembered of one jet.

/// How many manifolds a string has (document 02, order 7). Bytes of the feed and of reports have a bit for each.
pub const MANIFOLDS: usize = 8;
/// The word in which the bits of all manifolds are set.
pub const ALL_MANIFOLDS: u32 = (1 << MANIFOLDS) - 1;

/// A jet of a string. One that no mask names is ignored, but a state handed in may have anything of it.
#[derive(Clone, Debug, Default, PartialEq, Eq)]
pub struct Jet {
    pub number: usize,
    /// The manifolds whose masks name it: one at most, unless a state is handed in with masks that overlap.
    pub manifolds: [bool; MANIFOLDS],

    pub failed: bool,
    /// "C and not P" in the last three cycles, newest first.
    pub off_slots: [bool; 3],
    /// Bad in the last two major cycles, newest first.
    pub on_slots: [bool; 2],
    pub recheck: bool,
    pub inhibited: bool,
    pub re_enabled: bool,
    /// Stands in the saved set of each manifold. In a state handed in that may be any manifold's.
    pub saved: [bool; MANIFOLDS],

    pub good_failed: bool,
    pub good_saved: [bool; MANIFOLDS],
}

impl Jet {
    pub fn is_mapped(&self) -> bool {
        self.manifolds.contains(&true)
    }

    /// One of its manifolds has no bit in this word of valves.
    pub fn is_behind_closed(&self, valves: u32) -> bool {
        (0..MANIFOLDS).any(|manifold| self.manifolds[manifold] && !bit(valves, manifold))
    }
}

/// Jet `number` is that bit of a word, bit 0 the lowest.
pub fn bit(word: u32, number: usize) -> bool {
    (word >> number) % 2 == 1
}

/// "A jet leaks if either word, as a signed number, is at most 63" (document 02, order 3). A word is 16 bits,
/// two's complement.
pub fn leaks(temperatures: [u16; 2]) -> bool {
    temperatures.iter().any(|word| *word as i16 <= 63)
}
