//! A seeded generator (splitmix64), so that every seed gives the same bytes everywhere.

/// Begins as its seed.
#[derive(Clone, Debug)]
pub struct Random(pub u64);

impl Random {
    pub fn number(&mut self) -> u64 {
        self.0 = self.0.wrapping_add(0x9E37_79B9_7F4A_7C15);
        let mut mixed = self.0;
        mixed = (mixed ^ (mixed >> 30)).wrapping_mul(0xBF58_476D_1CE4_E5B9);
        mixed = (mixed ^ (mixed >> 27)).wrapping_mul(0x94D0_49BB_1331_11EB);
        mixed ^ (mixed >> 31)
    }

    /// 0 up to, not including, `end`.
    pub fn below(&mut self, end: u64) -> u64 {
        self.number() % end
    }

    pub fn index(&mut self, end: usize) -> usize {
        self.below(end as u64) as usize
    }

    /// True once in `times`; never if that is 0.
    pub fn one_in(&mut self, times: u64) -> bool {
        times > 0 && self.below(times) == 0
    }

    pub fn pick<T: Copy>(&mut self, choices: &[T]) -> T {
        choices[self.index(choices.len())]
    }

    /// 0 up to, not including, `end`, in any order.
    pub fn shuffled(&mut self, end: usize) -> Vec<usize> {
        let mut numbers: Vec<usize> = (0..end).collect();
        for place in 1..end {
            numbers.swap(place, self.index(place + 1));
        }
        numbers
    }

    /// Sets a clear bit once in `set` times, clears a set one once in `clear`.
    pub fn flip(&mut self, bits: &mut u8, number: usize, set: u64, clear: u64) {
        let is_set = (*bits >> number) % 2 == 1;
        if self.one_in(if is_set { clear } else { set }) {
            *bits ^= 1 << number;
        }
    }

    pub fn word(&mut self) -> u32 {
        self.number() as u32
    }

    /// One bit of a 32-bit word.
    pub fn jet(&mut self) -> u32 {
        1 << self.below(32)
    }

    pub fn bytes(&mut self, length: usize) -> Vec<u8> {
        (0..length).map(|_| self.number() as u8).collect()
    }

    /// Junk in which marks, and starts of them, are common.
    pub fn junk(&mut self, length: usize) -> Vec<u8> {
        let mut bytes = self.bytes(length);
        for byte in &mut bytes {
            *byte = self.pick(&[0x52, 0x52, 0x4D, 0x4A, 0x00, *byte]);
        }
        bytes
    }
}
