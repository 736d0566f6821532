//! The leak test.

use crate::record::Temperatures;

/// A temperature word up to this, as a signed number, shows a leak.
const LEAKS_UP_TO: i16 = 63;
/// A word whose bytes lie as in the record leaks if its sign is set, or none of its bits from 64 on.
const SIGN: u16 = i16::MIN.to_be() as u16;
const FROM_64: u16 = (!LEAKS_UP_TO).to_be() as u16;

/// As many words as the compiler tests at once.
const LANES: usize = 8;

/// Does any of these words show a leak? A lane for every eighth word gathers them, with the sign set for each that does.
pub fn any_leaks(temperatures: &[u8]) -> bool {
    let mut lanes = [0; LANES];
    for words in temperatures.as_chunks::<2>().0.as_chunks::<LANES>().0 {
        for (lane, &word) in lanes.iter_mut().zip(words) {
            let word = u16::from_ne_bytes(word);
            *lane |= word | if word & FROM_64 == 0 { u16::MAX } else { 0 };
        }
    }
    lanes.iter().fold(0, |seen, lane| seen | lane) & SIGN != 0
}

/// The jets of a string of which a word shows a leak.
#[inline(never)]
pub fn leaking(temperatures: &Temperatures) -> u32 {
    let (low, high) = temperatures.split_at(temperatures.len() / 2);
    let lanes = half_good(low).into_iter().zip(half_good(high));
    !lanes.fold(u32::MAX, |good, (low, high)| good & (u32::from(low) | u32::from(high) << 16))
}

/// Sixteen jets, in lanes as wide as a word: each lane takes every eighth word, and clears the jet that one shows
/// leaking. To keep the good ones costs less than to gather the others.
#[inline(always)]
fn half_good(temperatures: &[u8]) -> [u16; LANES] {
    let mut lanes = [u16::MAX; LANES];
    for (i, words) in temperatures.chunks_exact(2 * LANES).enumerate() {
        for (l, (lane, word)) in lanes.iter_mut().zip(words.chunks_exact(2)).enumerate() {
            let jet = (LANES * i + l) / 2;
            let leaks = i16::from_be_bytes(word.try_into().expect("two bytes each")) <= LEAKS_UP_TO;
            *lane &= if leaks { !(1 << jet) } else { u16::MAX };
        }
    }
    lanes
}
