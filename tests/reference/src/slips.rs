//! Calm nights: a hall in which nothing happens but single slips, so that most records find nothing, minor and
//! major ones, and each kind of slip is often the only thing that a record has. A program that takes a short way
//! through records that find nothing takes it here.

use crate::feed::{masks_bytes, MASKS_LENGTH};
use crate::generate::Night;
use crate::jet::MANIFOLDS;
use crate::maps::masks;
use crate::random::Random;
use crate::record::{Record, StringMajor};
use crate::world::{quantities, Chances};

/// Far from the seeds of lively nights.
const FIRST_SEED: u64 = 2_000_000;

/// What the program reads for the calm night of a number, masks and then a feed of about `size` bytes, and how many
/// spots of it are damaged. Every third begins near a wrap of the wire cycle.
pub fn input(number: u64, size: usize) -> (Vec<u8>, u64) {
    let mut random = Random(FIRST_SEED + number);
    let masks = masks(&mut random);
    let mut bytes = masks_bytes(&masks).to_vec();
    let chances = Chances::calm(&mut random);
    let mut night = Night::of(0, &masks, chances, random);
    if number % 3 == 2 {
        bytes.extend(night.travel());
    }
    while bytes.len() < MASKS_LENGTH + size {
        bytes.extend(night.step());
    }
    (bytes, night.damaged)
}

/// One thing of a calm record is otherwise, of a jet or manifold that is mapped or not.
pub fn slip(record: &mut Record, random: &mut Random) {
    let s = random.index(4);
    let jet = random.jet();
    let manifold = random.index(MANIFOLDS);
    let words = &mut record.strings[s];
    match (random.below(8), &mut record.major) {
        (0, _) => record.path |= 1 << s,
        (1, _) => words.valves ^= 1 << manifold,
        (2 | 3, Some(major)) => chill(&mut major.strings[s], jet, random),
        (4, Some(major)) => major.strings[s].inhibit |= jet,
        (5, Some(major)) => major.strings[s].re_enable |= jet,
        (6, Some(major)) => major.strings[s].drops |= 1 << manifold,
        (7, _) => {
            words.commanded &= !jet;
            words.driver |= jet;
        }
        _ => {
            words.commanded |= jet;
            words.pressure &= !jet;
        }
    }
    if let (Some(major), true) = (&mut record.major, random.one_in(4)) {
        major.quantities[random.index(3)] = quantities(random);
    }
}

/// One word of the jet is at an end of a range that leaks.
fn chill(string: &mut StringMajor, jet: u32, random: &mut Random) {
    string.temperatures[jet.trailing_zeros() as usize][random.index(2)] =
        random.pick(&[0, 63, 32_768, 65_535]);
}
