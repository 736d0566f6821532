//! Halls that no run reaches, handed in whole: masks that overlap, saved sets beyond their masks,
//! bits of jets in no mask, valves and close words with high bits, any n, any banks. Each with a few
//! calls whose records are made to meet what the hall has.

use crate::counted::Counted;
use crate::foreign_cases::ForeignCases;
use crate::hall::{overlap, Hall, BOTH_WAYS, OUTBOX_SHORT, TAKEN};
use crate::jet::{Jet, ALL_MANIFOLDS, MANIFOLDS};
use crate::jet_string::JetString;
use crate::maps::{masks, union};
use crate::monitor::{Monitor, MOST_HELD, STORE_LENGTH};
use crate::random::Random;
use crate::reader::look_and_tell;
use crate::record::{Record, StringMajor, StringWords, ALL_OPEN};
use crate::report::REPORT_LENGTH;
use crate::script::{call, state, WHOLE_HALL};
use crate::state::{hall_from, masks_of, HALL_LENGTH, STRING_WORDS};
use crate::world::{
    drops, name_both_ways, name_one_way, quantities, reserve_a_path_bit, telling_leaks, temperatures,
};

/// The script of a seed: a hall and one to three calls.
pub fn script(seed: u64, cases: &mut ForeignCases, counted: &mut Counted) -> Vec<u8> {
    // Far from the seeds of feeds and scripts.
    let mut random = Random(0x4A11_0000_0000 + seed);
    let hall = hall(&mut random);
    let mut monitor = Monitor { hall: hall_from(&hall), held: 0, store: [0; STORE_LENGTH] };
    cases.halls += 1;
    cases.with_overlapping_masks += u64::from(overlap(&masks_of(&monitor.hall)));
    counted.begin(&monitor.hall);

    let mut piece = next_piece(&monitor.hall, &mut random);
    let (held, store) = held(&mut piece, &mut random, cases);
    monitor.hand_in(monitor.hall.n, held, store);
    let calls = 1 + random.below(3) as u16;
    let mut script = state(WHOLE_HALL, &hall, held, &store);
    script.extend(calls.to_be_bytes());
    for number in 0..calls {
        let mut outbox = outbox(&mut random);
        script.extend(call(&piece, &outbox));
        let mut lost = Vec::new();
        let mut bytes = [monitor.take_held(), piece.clone()].concat();
        let settled = look_and_tell(&mut bytes, |bytes| lost.push(bytes.to_vec()));
        let before = monitor.clone();
        let (answer, used) = monitor.call(&piece, &mut outbox);
        cases.add(answer);
        counted.add_call(answer, &before.hall, settled.as_ref(), &monitor.hall, &lost);
        if let Some(outboxes) = &mut counted.outboxes {
            outboxes.add(outbox.len(), answer, &before.hall, settled.as_ref());
        }
        for claims in counted.claims.iter_mut().filter(|_| number == 0) {
            claims.add(&before, &piece, (answer, used), &monitor);
        }
        if let Some(record) = settled.as_ref().filter(|_| answer == TAKEN) {
            cases.add_taken(&before.hall, record, &monitor.hall);
        }
        piece = match (answer, settled) {
            // The caller tries again, ..
            (OUTBOX_SHORT, _) => piece,
            // .. now and then also where it named jets both ways.
            (BOTH_WAYS, Some(record)) if random.one_in(2) => {
                one_way(record, &before.hall, &mut random).bytes()
            }
            // What was bad at a major cycle may be so at the next.
            (TAKEN, Some(record)) if record.major.is_some() && random.one_in(3) => {
                at_next_major(record, &mut random).bytes()
            }
            _ => next_piece(&monitor.hall, &mut random),
        };
    }
    script
}

/// Where the words that have a bit for each manifold stand among those of a string.
const VALVES_PLACE: usize = 1;
const GOOD_VALVES_PLACE: usize = VALVES_PLACE + MANIFOLDS + 2;
const CLOSE_PLACE: usize = STRING_WORDS - 1;

/// The words of a string: any, few or many bits, or as others of the same string, or nearly so.
struct Words(Vec<u32>);

impl Words {
    fn next(&mut self, random: &mut Random) -> u32 {
        let any = random.word();
        let few = any & random.word() & random.word();
        let many = any | random.word() | random.word();
        let known = random.pick(&self.0);
        let near = known ^ random.jet();
        let jet = random.jet();
        let word = random.pick(&[0, u32::MAX, any, few, many, jet, known, known, near, near]);
        self.0.push(word);
        word
    }
}

/// The bytes of a hall.
fn hall(random: &mut Random) -> [u8; HALL_LENGTH] {
    let any = random.word();
    // Often just before a major cycle, now and then before the count's end.
    let before_major = (any / 25 * 25).saturating_sub(1);
    let near_end = u32::MAX - random.below(60) as u32;
    let n = random.pick(&[any, any, before_major, before_major, before_major, near_end, 0, 24]);
    // One hall in four has a map that is not refused.
    let masks = if random.one_in(4) { masks(random) } else { [(); 4].map(|_| string_masks(random)) };
    let mut bytes = n.to_be_bytes().to_vec();
    bytes.extend(masks.iter().flatten().flat_map(|mask| mask.to_be_bytes()));
    for masks in &masks {
        let mut words = Words(masks.to_vec());
        for place in 0..STRING_WORDS {
            let is_of_manifolds = [VALVES_PLACE, GOOD_VALVES_PLACE, CLOSE_PLACE].contains(&place);
            let word = if is_of_manifolds { manifolds_word(random) } else { words.next(random) };
            bytes.extend(word.to_be_bytes());
        }
        bytes.push(flag(random));
    }
    for _ in 0..3 {
        bytes.extend([flag(random), flag(random)]);
        bytes.extend((random.word() as u16).to_be_bytes());
        bytes.extend(difference(random).to_be_bytes());
    }
    bytes.try_into().expect("a hall's bytes")
}

/// The masks of a string, two times in three such as no map has.
fn string_masks(random: &mut Random) -> [u32; MANIFOLDS] {
    let allowed = masks(random)[0];
    let mut words = Words(allowed.to_vec());
    match random.below(3) {
        0 => allowed,
        1 => [(); MANIFOLDS].map(|_| words.next(random)),
        _ => allowed.map(|mask| mask | random.word() & random.word() & random.word()),
    }
}

/// Valves or close bits; the bits above the manifolds are often set.
fn manifolds_word(random: &mut Random) -> u32 {
    let low = random.word() & ALL_MANIFOLDS;
    let high = random.word() & !ALL_MANIFOLDS;
    let next = ALL_MANIFOLDS + 1;
    random.pick(&[low, low, low, 0, ALL_MANIFOLDS, low | high, low | high, low | next, low | 0x8000_0000])
}

/// Any, often one that a feed may bring, whether or not it fits the rest of the module.
fn difference(random: &mut Random) -> i16 {
    let any = random.word() as i16;
    let allowed = random.below(2_001) as i16 - 1_000;
    random.pick(&[any, any, allowed, allowed, 0, 16, 17, -16, -17])
}

/// Any byte but 0 says yes.
fn flag(random: &mut Random) -> u8 {
    let any = random.word() as u8;
    random.pick(&[0, 0, 0, 0, 0, 1, 1, 1, 255, any])
}

/// A record for the hall, now and then with junk before it, with a reserved path bit, or broken off.
fn next_piece(hall: &Hall, random: &mut Random) -> Vec<u8> {
    let length = random.index(30);
    let mut piece = if random.one_in(8) { random.bytes(length) } else { Vec::new() };
    let mut record = record(hall, random);
    if random.one_in(16) {
        reserve_a_path_bit(&mut record, random);
    }
    piece.extend(record.bytes());
    if random.one_in(25) {
        piece.truncate(random.index(piece.len()));
    }
    piece
}

/// Mostly one that just takes a report; now and then longer, a byte short, or shorter.
fn outbox(random: &mut Random) -> Vec<u8> {
    const FIT: usize = REPORT_LENGTH;
    let longer = FIT + 1 + random.index(12);
    let any = random.index(FIT);
    let shorter = random.pick(&[0, any]);
    let length = random.pick(&[FIT, FIT, FIT, FIT, FIT, FIT, longer, longer, FIT - 1, shorter]);
    random.bytes(length)
}

/// A claim and a store. Bytes that are held are taken from the front of the piece.
fn held(piece: &mut Vec<u8>, random: &mut Random, cases: &mut ForeignCases) -> (u16, [u8; STORE_LENGTH]) {
    let mut store: [u8; STORE_LENGTH] = random.junk(STORE_LENGTH).try_into().expect("619 bytes");
    match random.below(6) {
        0 | 1 => {
            let most = piece.len().min(MOST_HELD);
            let any = random.index(1 + most);
            // Of a major record often all that can be held, or a few bytes less.
            let few_less = MOST_HELD - 1 - random.index(3);
            let length = random.pick(&[any, any, most, few_less, few_less, few_less]).min(most);
            store[..length].copy_from_slice(&piece[..length]);
            piece.drain(..length);
            cases.with_held_bytes += 1;
            (length as u16, store)
        }
        2 => {
            let length = piece.len().min(STORE_LENGTH);
            store[..length].copy_from_slice(&piece[..length]);
            cases.with_a_claim_above_618 += 1;
            (random.pick(&[619, 620, 40_000, 65_535]), store)
        }
        _ => (0, store),
    }
}

/// Mostly a record that is taken, of the right kind for the hall's n and with words that meet the hall's. One
/// major in four names jets both ways.
fn record(hall: &Hall, random: &mut Random) -> Record {
    let n = u64::from(hall.n);
    let to_major = 25 - n % 25;
    let short = 2 + random.below(30);
    let far = 1 + random.below(32_767);
    let far_major = to_major + far / 26 * 25;
    let stale = 32_768 + random.below(32_768);
    let soon = random.pick(&[1, 1, 1, 1, 1, 1, 1, to_major, to_major, to_major, short, short]);
    let late = random.pick(&[far, far_major, 32_767]);
    let cycle = n + match random.below(14) {
        0 => 0,
        1 => stale,
        2..=4 => late,
        _ => soon,
    };
    let kind = if random.one_in(16) { u64::from(cycle.is_multiple_of(25)) } else { cycle };
    let mut record = Record::quiet(kind);
    record.wire = cycle as u16;
    let path = random.below(16) as u8;
    record.path = random.pick(&[0, 0, path]);
    for (s, string) in hall.strings.iter().enumerate() {
        let mut words = known(string);
        record.strings[s] = string_words(string, &mut words, random);
        if let Some(major) = &mut record.major {
            major.strings[s] = string_major(string, &mut words, random);
        }
    }
    if let Some(major) = &mut record.major {
        major.quantities = [(); 3].map(|_| quantities(random));
    }
    if random.one_in(4) {
        name_both_ways(&mut record, mapped(hall), random);
    }
    record
}

fn mapped(hall: &Hall) -> [u32; 4] {
    masks_of(hall).map(union)
}

/// The record with one request for each of the hall's jets at most.
fn one_way(mut record: Record, hall: &Hall, random: &mut Random) -> Record {
    let strings = record.major.iter_mut().flat_map(|major| &mut major.strings);
    for (words, mapped) in strings.zip(mapped(hall)) {
        name_one_way(words, mapped, random);
    }
    record
}

/// The record for the next major cycle, with other drops and quantities, and often without requests for jets.
fn at_next_major(mut record: Record, random: &mut Random) -> Record {
    record.wire = record.wire.wrapping_add(25);
    for banks in record.major.iter_mut().flat_map(|major| &mut major.quantities) {
        *banks = quantities(random);
    }
    for string in record.major.iter_mut().flat_map(|major| &mut major.strings) {
        string.drops = if random.one_in(2) { 0 } else { drops(random) };
        if random.one_in(2) {
            (string.inhibit, string.re_enable) = (0, 0);
        }
    }
    record
}

/// The words that a record ought to meet.
fn known(string: &JetString) -> Words {
    let slots = |slot: usize| string.word(|jet| jet.off_slots[slot]);
    Words(vec![
        string.word(Jet::is_mapped),
        string.word(|jet| jet.failed),
        slots(0) & slots(1),
        slots(0),
        string.word(|jet| jet.on_slots[0]),
        string.word(|jet| jet.recheck),
        string.word(|jet| jet.inhibited),
        string.word(|jet| jet.re_enabled),
    ])
}

fn string_words(string: &JetString, words: &mut Words, random: &mut Random) -> StringWords {
    let remembered = string.valves as u8 & ALL_OPEN;
    let any = random.word() as u8 & ALL_OPEN;
    StringWords {
        commanded: words.next(random),
        pressure: words.next(random),
        driver: words.next(random),
        valves: random.pick(&[remembered, ALL_OPEN & !remembered, any, any, 0, ALL_OPEN]),
    }
}

fn string_major(string: &JetString, words: &mut Words, random: &mut Random) -> StringMajor {
    // The mapped jets are the first of the known words.
    let mapped = words.0[0];
    let telling = telling_leaks(mapped, random);
    let leaking = if random.one_in(4) { random.pick(&telling) } else { words.next(random) };
    let temperatures = temperatures(leaking, random);
    let (inhibit, re_enable) = (words.next(random), words.next(random));
    let set = (string.close & ALL_MANIFOLDS) as u8;
    let asked = drops(random);
    let drops = random.pick(&[0, set, asked, asked]);
    let mut major = StringMajor { temperatures, inhibit, re_enable, drops };
    name_one_way(&mut major, mapped, random);
    major
}
