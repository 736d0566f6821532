//! Maps for generated nights and halls: jets on none, some or all manifolds of a string, split evenly or not.

use crate::hall::{Masks, EMPTY_MAP};
use crate::jet::MANIFOLDS;
use crate::random::Random;
use crate::world::jets;

/// How many styles the masks of a string are drawn in.
const STYLES: u64 = 10;

/// The masks of a string: these of its lowest manifolds, and 0 for the others.
pub const fn masks_of(low: &[u32]) -> [u32; MANIFOLDS] {
    let mut masks = [0; MANIFOLDS];
    let mut manifold = 0;
    while manifold < low.len() {
        masks[manifold] = low[manifold];
        manifold += 1;
    }
    masks
}

/// The jets that the masks name.
pub fn union(masks: [u32; MANIFOLDS]) -> u32 {
    masks.iter().fold(0, |all, mask| all | mask)
}

/// The lowest jet of each manifold that has any.
pub fn one_jet_of_each(masks: [u32; MANIFOLDS]) -> u32 {
    masks.iter().filter_map(|mask| jets(*mask).first().copied()).sum()
}

/// Maps that are not refused, their strings alike or each in its own style.
pub fn masks(random: &mut Random) -> Masks {
    let alike = random.below(STYLES);
    let mixed = random.one_in(2);
    [(); 4].map(|_| {
        let style = if mixed { random.below(STYLES) } else { alike };
        string_masks(style, random)
    })
}

/// Empty, full, even, one jet, eleven jets, or random with disjoint masks on all or some of the manifolds.
fn string_masks(style: u64, random: &mut Random) -> [u32; MANIFOLDS] {
    let any = MANIFOLDS + random.index(33 - MANIFOLDS);
    let many = random.pick(&[32, any, any]);
    let some = 2 + random.index(MANIFOLDS - 2);
    match style {
        0 => [0; MANIFOLDS],
        1 => dealt(32, 1, false, random),
        2 => even(),
        3 => dealt(1, 1, false, random),
        4 => dealt(11, MANIFOLDS, false, random),
        5 | 6 => dealt(many, MANIFOLDS, false, random),
        7 => dealt(many, some, false, random),
        _ => dealt(many.max(20), some, true, random),
    }
}

/// All jets in order, as many on each manifold.
fn even() -> [u32; MANIFOLDS] {
    let mut masks = [0; MANIFOLDS];
    for jet in 0..32 {
        masks[jet * MANIFOLDS / 32] |= 1 << jet;
    }
    masks
}

/// So many jets on so many manifolds, one on each at least; unevenly, nearly all others are on one of them.
fn dealt(jets: usize, manifolds: usize, unevenly: bool, random: &mut Random) -> [u32; MANIFOLDS] {
    let mut masks = [0; MANIFOLDS];
    let places = random.shuffled(MANIFOLDS)[..manifolds].to_vec();
    for (number, jet) in random.shuffled(32).into_iter().take(jets).enumerate() {
        let place = match places.get(number) {
            Some(place) => *place,
            None if unevenly && !random.one_in(8) => places[0],
            None => random.pick(&places),
        };
        masks[place] |= 1 << jet;
    }
    masks
}

/// Maps in which a bit stands in two masks of a string.
pub fn refused_masks(random: &mut Random) -> Masks {
    let mut masks = masks(random);
    let string = &mut masks[random.index(4)];
    let one = random.index(MANIFOLDS);
    let shared = random.jet();
    string[one] |= shared;
    string[(one + 1 + random.index(MANIFOLDS - 1)) % MANIFOLDS] |= shared;
    masks
}

/// For each two manifolds of each string, a map that is refused for one jet that both have, and for nothing else.
pub fn each_shared_jet() -> Vec<Masks> {
    let mut refused = Vec::new();
    for s in 0..4 {
        for one in 0..MANIFOLDS {
            for other in 0..one {
                let mut masks = EMPTY_MAP;
                masks[s] = even();
                masks[s][other] |= masks[s][one] & masks[s][one].wrapping_neg();
                refused.push(masks);
            }
        }
    }
    refused
}
