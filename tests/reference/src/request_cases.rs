//! The cases that requests have to meet, and how often they did.

use crate::cases::{self, only};
use crate::jet::{ALL_MANIFOLDS, MANIFOLDS};
use crate::record::{StringMajor, MINOR_LENGTH};
use crate::request::{Request, LONGEST_OUTBOX};
use crate::writer::WRITTEN;

pub type Cases = cases::Cases<Request>;

impl Default for Cases {
    fn default() -> Cases {
        Cases::of(CASES)
    }
}

/// Each manifold of each string.
const EACH: usize = 4 * MANIFOLDS;

/// "Alone" is without any other fault. Minors stand before majors, but where only majors count.
const CASES: [cases::Named<Request>; 16] = [
    ("answers 0, 1, 3; 0, 1, 2, 3", 7, answer),
    ("faults together: reserved bit +1, short outbox +2; quantity +2, short outbox +4", 12, faults),
    ("each reserved bit alone, bits 4 to 7 of the path byte", 4 + 4, reserved_bit_alone),
    ("several reserved bits", 2, several_reserved_bits),
    ("each quantity 1,000, written", 6, full_quantities),
    ("each quantity 1,001 alone", 6, |request| large_quantity_alone(request, 1_001)),
    ("each quantity 65,535 alone", 6, |request| large_quantity_alone(request, 65_535)),
    ("several quantities above 1,000", 1, several_large_quantities),
    ("outbox of 0, one short, exact, one longer, longer, 1,024, else good", 12, outbox),
    ("a minor's outbox for a major, else good", 1, minors_outbox_for_major),
    ("written: wire cycle a multiple of 25 or not", 4, wire_cycle),
    ("written: temperature words of 0 to 63, to 32,767, to 65,535", 3, temperatures),
    ("written: jets named neither way, one way, both ways", 3, named),
    ("written: valves of a string, none open, some, all, and each alone", 3 + EACH, valves),
    ("written: a string that drops no manifold, some, all, and the bit of each alone", 3 + EACH, drops),
    ("written: a major's bytes come to 65,535 at most, to more", 2, size_of_sum),
];

fn is_short(request: &Request) -> bool {
    request.outbox_length < request.record_length()
}

fn is_written(request: &Request) -> bool {
    request.said()[0] == WRITTEN
}

/// Bits 4 to 7 of the path byte, numbered from 0.
fn reserved_bits(request: &Request) -> Vec<usize> {
    (0..4).filter(|number| (request.record.path >> (4 + number)) % 2 == 1).collect()
}

/// What a major record says of the strings, if it is written.
fn written_strings(request: &Request) -> Vec<StringMajor> {
    let major = request.record.major.iter().filter(|_| is_written(request));
    major.flat_map(|major| major.strings).collect()
}

fn quantities(request: &Request) -> Vec<u16> {
    request.record.major.iter().flat_map(|major| major.quantities).flatten().collect()
}

/// The places of the quantities that hold this.
fn which(quantities: &[u16], holds: impl Fn(u16) -> bool) -> Vec<usize> {
    (0..quantities.len()).filter(|place| holds(quantities[*place])).collect()
}

fn large_quantities(request: &Request) -> Vec<usize> {
    which(&quantities(request), |quantity| quantity > 1_000)
}

fn answer(request: &Request) -> Vec<usize> {
    let answer = usize::from(request.said()[0]);
    vec![match (request.is_major(), answer) {
        (true, _) => 3 + answer,
        (false, 3) => 2,
        (false, _) => answer,
    }]
}

fn faults(request: &Request) -> Vec<usize> {
    let reserved = usize::from(!reserved_bits(request).is_empty());
    let large = usize::from(!large_quantities(request).is_empty());
    let short = usize::from(is_short(request));
    vec![match request.is_major() {
        true => 4 + reserved + 2 * large + 4 * short,
        false => reserved + 2 * short,
    }]
}

fn reserved_bit_alone(request: &Request) -> Vec<usize> {
    match reserved_bits(request)[..] {
        [bit] if large_quantities(request).is_empty() && !is_short(request) => {
            vec![4 * usize::from(request.is_major()) + bit]
        }
        _ => vec![],
    }
}

fn several_reserved_bits(request: &Request) -> Vec<usize> {
    only(reserved_bits(request).len() > 1, request.is_major().into())
}

fn full_quantities(request: &Request) -> Vec<usize> {
    match is_written(request) {
        true => which(&quantities(request), |quantity| quantity == 1_000),
        false => vec![],
    }
}

fn large_quantity_alone(request: &Request, size: u16) -> Vec<usize> {
    let large = large_quantities(request);
    if large.len() != 1 || !reserved_bits(request).is_empty() || is_short(request) {
        return vec![];
    }
    which(&quantities(request), |quantity| quantity == size)
}

fn several_large_quantities(request: &Request) -> Vec<usize> {
    only(large_quantities(request).len() > 1, 0)
}

fn outbox(request: &Request) -> Vec<usize> {
    if !reserved_bits(request).is_empty() || !large_quantities(request).is_empty() {
        return vec![];
    }
    let (length, needed) = (request.outbox_length, request.record_length());
    let variant = if length == 0 {
        0
    } else if length == LONGEST_OUTBOX {
        5
    } else if length + 1 < needed {
        return vec![];
    } else {
        (length + 2 - needed).min(4)
    };
    vec![6 * usize::from(request.is_major()) + variant]
}

fn minors_outbox_for_major(request: &Request) -> Vec<usize> {
    let is_good = reserved_bits(request).is_empty() && large_quantities(request).is_empty();
    only(is_good && request.is_major() && request.outbox_length == MINOR_LENGTH, 0)
}

fn wire_cycle(request: &Request) -> Vec<usize> {
    let other = usize::from(!request.record.wire.is_multiple_of(25));
    only(is_written(request), 2 * usize::from(request.is_major()) + other)
}

fn temperatures(request: &Request) -> Vec<usize> {
    let strings = written_strings(request);
    let words: Vec<u16> = strings.iter().flat_map(|string| string.temperatures).flatten().collect();
    let ranges = [0..=63, 64..=32_767, 32_768..=65_535];
    (0..3).filter(|range| words.iter().any(|word| ranges[*range].contains(word))).collect()
}

fn named(request: &Request) -> Vec<usize> {
    let strings = written_strings(request);
    let any = |word: fn(&StringMajor) -> u32| strings.iter().any(|string| word(string) != 0);
    let neither = any(|string| !(string.inhibit | string.re_enable));
    let one = any(|string| string.inhibit ^ string.re_enable);
    let both = any(|string| string.inhibit & string.re_enable);
    [only(neither, 0), only(one, 1), only(both, 2)].concat()
}

fn valves(request: &Request) -> Vec<usize> {
    let is_written = is_written(request);
    let strings = request.record.strings.into_iter().filter(|_| is_written);
    manifolds(strings.map(|string| string.valves))
}

fn drops(request: &Request) -> Vec<usize> {
    manifolds(written_strings(request).into_iter().map(|string| string.drops))
}

/// Whether the byte of a string has the bits of no manifold, of some or of all; the single bits string by string.
fn manifolds(bytes: impl Iterator<Item = u8>) -> Vec<usize> {
    let variants = |(s, byte): (usize, u8)| match u32::from(byte) {
        0 => vec![0],
        ALL_MANIFOLDS => vec![2],
        _ => {
            let single = 3 + MANIFOLDS * s + byte.trailing_zeros() as usize;
            [vec![1], only(byte.is_power_of_two(), single)].concat()
        }
    };
    bytes.enumerate().flat_map(variants).collect()
}

fn size_of_sum(request: &Request) -> Vec<usize> {
    let bytes = request.record.bytes();
    let summed = &bytes[..bytes.len() - 2];
    let all: u32 = summed.iter().map(|byte| u32::from(*byte)).sum();
    only(request.is_major() && is_written(request), usize::from(all > 65_535))
}
