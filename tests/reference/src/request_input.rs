//! Seeded requests that meet every case of the writer, and inputs in which the program must stop.

use crate::jet::MANIFOLDS;
use crate::random::Random;
use crate::record::{Record, MINOR_LENGTH};
use crate::request::{Request, LONGEST_OUTBOX, MAJOR_KIND, MINOR_KIND};
use crate::world::reserve_a_path_bit;

/// Faults of a request, drawn so that single ones are common and all go together.
const NONE: u8 = 0;
const RESERVED: u8 = 1;
const LARGE: u8 = 2;
const SHORT: u8 = 4;
const FAULTS: [u8; 13] = [
    NONE,
    NONE,
    NONE,
    NONE,
    RESERVED,
    RESERVED,
    LARGE,
    LARGE,
    SHORT,
    RESERVED | LARGE,
    RESERVED | SHORT,
    LARGE | SHORT,
    RESERVED | LARGE | SHORT,
];

/// More than anyone tries; those that broken inputs draw from.
const SEEDS: u64 = 1_000_000;

/// The request of a seed. Its kind does not depend on its wire cycle, which the writer leaves to
/// the caller.
pub fn request(seed: u64) -> Request {
    // Far from the seeds of feeds, scripts and halls.
    let mut random = Random(0x0057_2174_0000_0000 + seed);
    let kind = random.pick(&[MINOR_KIND, MAJOR_KIND]);
    let record = allowed(kind == MAJOR_KIND, &mut random);
    let mut request = Request { record, outbox_length: 0, fill: 0 };
    let faults = random.pick(&FAULTS);
    if faults & RESERVED != 0 {
        set_reserved_bits(&mut request.record, &mut random);
    }
    if faults & LARGE != 0 {
        enlarge_quantities(&mut request.record, &mut random);
    }
    request.outbox_length = if faults & SHORT != 0 {
        short_of(request.record_length(), &mut random)
    } else {
        enough_for(request.record_length(), &mut random)
    };
    let any = random.word() as u8;
    request.fill = random.pick(&[0, 255, any, any, any, any, any, any]);
    request
}

/// Any values that the writer must not refuse.
fn allowed(is_major: bool, random: &mut Random) -> Record {
    let length = Record::quiet(u64::from(!is_major)).values().len();
    let mut values = random.bytes(length);
    match random.below(10) {
        0 => values.fill(0),
        1 => values.fill(255),
        // Few bits, so that sums are small.
        2 | 3 => values.iter_mut().filter(|_| !random.one_in(4)).for_each(|value| *value = 0),
        _ => {}
    }
    let mut record = Record::of_values(is_major, &values);
    record.path %= 16;
    let drops = record.major.iter_mut().flat_map(|major| &mut major.strings).map(|string| &mut string.drops);
    for byte in record.strings.iter_mut().map(|string| &mut string.valves).chain(drops) {
        let one = 1 << random.index(MANIFOLDS);
        *byte = random.pick(&[one, *byte, *byte, *byte]);
    }
    for quantity in record.major.iter_mut().flat_map(|major| &mut major.quantities).flatten() {
        let any = random.below(1_001) as u16;
        *quantity = random.pick(&[0, 999, 1_000, any, any]);
    }
    record
}

/// Mostly one.
fn set_reserved_bits(record: &mut Record, random: &mut Random) {
    for _ in 0..random.pick(&[1, 1, 1, 2, 20]) {
        reserve_a_path_bit(record, random);
    }
}

/// Mostly one; a minor record has none.
fn enlarge_quantities(record: &mut Record, random: &mut Random) {
    if let Some(major) = &mut record.major {
        for _ in 0..random.pick(&[1, 1, 1, 2, 12]) {
            let any = 1_001 + random.below(65_536 - 1_001) as u16;
            major.quantities[random.index(3)][random.index(2)] = random.pick(&[1_001, 65_535, any]);
        }
    }
}

fn short_of(length: usize, random: &mut Random) -> usize {
    let any = random.index(length);
    // What a minor record would fit in.
    let minors = MINOR_LENGTH.min(length - 1);
    random.pick(&[0, length - 1, minors, any])
}

fn enough_for(length: usize, random: &mut Random) -> usize {
    let any = length + random.index(LONGEST_OUTBOX + 1 - length);
    random.pick(&[length, length + 1, any, any, LONGEST_OUTBOX])
}

/// Inputs by name in which the program must stop, some after whole requests: at an unknown kind or
/// a length above 1,024, with more behind it, and in either kind broken off at every place.
pub fn broken_inputs() -> Vec<(String, Vec<u8>)> {
    let mut inputs = vec![("empty input".into(), Vec::new())];
    let mut random = Random(0x0057_2174);
    for kind in 2..=255 {
        let mut bad = request(random.below(SEEDS)).bytes();
        bad[0] = kind;
        let input = [up_to(2, &mut random), bad, up_to(3, &mut random)].concat();
        inputs.push((format!("kind {kind}"), input));
    }
    for length in [1_025_u16, 1_026, 1_279, 1_280, 2_048, 4_096, 32_768, 65_535] {
        for kind in [MINOR_KIND, MAJOR_KIND] {
            let mut bad = of_kind(kind, &mut random).bytes();
            bad[1..3].copy_from_slice(&length.to_be_bytes());
            let input = [up_to(2, &mut random), bad, up_to(3, &mut random)].concat();
            inputs.push((format!("outbox of {length} for kind {kind}"), input));
        }
    }
    for kind in [MINOR_KIND, MAJOR_KIND] {
        for place in 1..of_kind(kind, &mut random).bytes().len() {
            let broken_off = of_kind(kind, &mut random).bytes()[..place].to_vec();
            let input = [up_to(2, &mut random), broken_off].concat();
            inputs.push((format!("kind {kind} broken off after {place} bytes"), input));
        }
    }
    inputs
}

/// Some whole requests.
fn up_to(most: u64, random: &mut Random) -> Vec<u8> {
    (0..random.below(most + 1)).flat_map(|_| request(random.below(SEEDS)).bytes()).collect()
}

/// Any request of the kind.
fn of_kind(kind: u8, random: &mut Random) -> Request {
    loop {
        let request = request(random.below(SEEDS));
        if request.is_major() == (kind == MAJOR_KIND) {
            return request;
        }
    }
}
