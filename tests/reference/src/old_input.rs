//! Inputs of tables that have four manifolds a string: the map has 64 bytes. They are not refused for that. The
//! program takes the first 64 bytes of the feed for masks, and may accept them.

use crate::feed::{masks_bytes, start_from, MASKS_LENGTH};
use crate::generate::Night;
use crate::hall::{Masks, TAKEN};
use crate::maps::masks;
use crate::random::Random;
use crate::record::Record;

pub const OLD_MASKS_LENGTH: usize = 64;

/// More than enough: of about 256 that are drawn one is accepted.
const DRAWS: usize = 20_000;

/// The input of a seed, whose first bytes are accepted for a map, or are refused.
pub fn old_input(seed: u64, is_accepted: bool) -> Vec<u8> {
    // Far from the seeds of feeds, scripts, halls and requests.
    let mut random = Random(0x01D0_0000_0000 + seed);
    let masks = masks(&mut random);
    let mut drawn = (0..DRAWS).map(|_| begin(&masks, [(); 4].map(|_| random.below(16) as u8)));
    let is_asked_for = |input: &Vec<u8>| (start_from(&input[..MASKS_LENGTH]).0 == TAKEN) == is_accepted;
    let begin = drawn.find(is_asked_for).expect("both are drawn");
    [begin, feed(&masks, random)].concat()
}

/// Half of the masks, in which no two beside each other share a jet, and the first two records: quiet but for these
/// valves.
fn begin(masks: &Masks, valves: [u8; 4]) -> Vec<u8> {
    let mut first = Record::quiet(1);
    for (string, valves) in first.strings.iter_mut().zip(valves) {
        string.valves = valves;
    }
    [&masks_bytes(masks)[..OLD_MASKS_LENGTH], &first.bytes(), &Record::quiet(2).bytes()].concat()
}

/// A lively night from cycle 3 on.
fn feed(masks: &Masks, random: Random) -> Vec<u8> {
    let mut night = Night::after(2, masks, random);
    (0..100).flat_map(|_| night.step()).collect()
}
