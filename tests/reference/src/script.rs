//! Scripts for a program that makes single calls: any state handed in, then pieces and outboxes.
//!
//! A script has its kind (1), a hall (618, see `state`), the claimed count (2), the store (619),
//! the number of calls (2), then for each call the piece's length (2, at most 4,096), the piece,
//! the outbox's length (1) and its contents. By kind 0 the calls begin with what the start over the
//! hall's masks gives, but for the hall's n; by any other the whole hall is handed in as it stands.
//! An input is any number of scripts, one after the other. The program says for each the start's
//! answer to the hall's masks (1), whatever the kind, then for each call: answer (1), bytes used
//! (2), the outbox, the hall (618), the count (2) and the whole store (619), the places behind the
//! held bytes included. Numbers have the high byte first. The program stops silently at the end of
//! its input, at a script that is incomplete, or at a piece that is longer than 4,096.

use crate::feed::{masks_bytes, MASKS_LENGTH};
use crate::generate::Night;
use crate::hall::{Hall, Masks};
use crate::maps::{masks, refused_masks};
use crate::monitor::{Monitor, MOST_HELD, STORE_LENGTH};
use crate::random::Random;
use crate::record::{MAJOR, MARK};
use crate::report::REPORT_LENGTH;
use crate::state::{hall_bytes, hall_from, masks_of, HALL_LENGTH};

/// The kinds of script.
pub const FROM_START: u8 = 0;
pub const WHOLE_HALL: u8 = 1;

const STATE_LENGTH: usize = 1 + HALL_LENGTH + 2 + STORE_LENGTH;
const LONGEST_PIECE: usize = 4_096;

/// What the monitor says to an input: for each script the start, then call by call.
pub fn play(mut input: &[u8]) -> Vec<Vec<u8>> {
    let mut said = Vec::new();
    while let Some((state, calls)) = next_header(&mut input) {
        let (answer, mut monitor) = started(state);
        said.push(vec![answer]);
        for _ in 0..calls {
            let Some((piece, contents)) = next_call(&mut input) else {
                return said;
            };
            let mut outbox = contents.to_vec();
            let (answer, used) = monitor.call(piece, &mut outbox);
            let mut words = vec![answer];
            words.extend((used as u16).to_be_bytes());
            words.extend(outbox);
            words.extend(hall_bytes(&monitor.hall));
            words.extend(monitor.held.to_be_bytes());
            words.extend(monitor.store);
            said.push(words);
        }
    }
    said
}

fn next_header<'a>(rest: &mut &'a [u8]) -> Option<(&'a [u8; STATE_LENGTH], u16)> {
    let (state, after) = rest.split_first_chunk()?;
    let (calls, after) = after.split_first_chunk()?;
    *rest = after;
    Some((state, u16::from_be_bytes(*calls)))
}

/// The start's answer, and the monitor that the calls begin with.
fn started(state: &[u8; STATE_LENGTH]) -> (u8, Monitor) {
    let (kind, rest) = state.split_first().expect("1 byte");
    let (hall, rest) = rest.split_first_chunk().expect("a hall's bytes");
    let (held, store) = rest.split_first_chunk().expect("2 bytes");
    let held = u16::from_be_bytes(*held);
    let store = store.try_into().expect("619 bytes");
    let hall = hall_from(hall);
    let (answer, mut monitor) = Monitor::start(masks_of(&hall));
    if *kind == FROM_START {
        monitor.hand_in(hall.n, held, store);
    } else {
        monitor = Monitor { hall, held, store };
    }
    (answer, monitor)
}

fn next_call<'a>(rest: &mut &'a [u8]) -> Option<(&'a [u8], &'a [u8])> {
    let (length, after) = rest.split_first_chunk()?;
    let length = u16::from_be_bytes(*length).into();
    if length > LONGEST_PIECE {
        return None;
    }
    let (piece, after) = after.split_at_checked(length)?;
    let (length, after) = after.split_first()?;
    let (outbox, after) = after.split_at_checked((*length).into())?;
    *rest = after;
    Some((piece, outbox))
}

/// A seeded input of one to three scripts, now and then broken off, or with a piece too long.
pub fn input(seed: u64) -> Vec<u8> {
    let mut random = Random(seed);
    let mut input = Vec::new();
    for _ in 0..1 + random.below(3) {
        input.extend(script(&mut random));
    }
    match random.below(16) {
        0 | 1 => input.truncate(input.len() - random.index(40)),
        2 => input.truncate(random.index(input.len())),
        3 => input.extend(too_long(&mut random)),
        _ => {}
    }
    input
}

/// Starts alone, over these maps.
pub fn starts(maps: &[Masks]) -> Vec<u8> {
    let start = |masks: &Masks| {
        let hall = hall_bytes(&Hall::fresh(masks));
        [state(FROM_START, &hall, 0, &[0; STORE_LENGTH]), vec![0; 2]].concat()
    };
    maps.iter().flat_map(start).collect()
}

/// A script whose second piece is longer than allowed, with more than it wants behind it.
fn too_long(random: &mut Random) -> Vec<u8> {
    let mut script = vec![0; STATE_LENGTH];
    script.extend([0, 9]);
    script.extend(call(&[], &random.bytes(REPORT_LENGTH)));
    let length = LONGEST_PIECE + 1 + random.index(3);
    script.extend((length as u16).to_be_bytes());
    script.extend(random.bytes(length));
    script.extend([0; 2_000]);
    script
}

/// A script in which a caller feeds a night to the monitor.
fn script(random: &mut Random) -> Vec<u8> {
    let masks = if random.one_in(20) { refused_masks(random) } else { masks(random) };
    let near_end = u32::MAX - random.below(60) as u32;
    let any = random.word();
    let n = random.pick(&[0, 0, 24, 65_530, near_end, near_end, u32::MAX, any]);
    let mut night = Night::after(n, &masks, Random(random.number()));
    let mut feed = Vec::new();
    while feed.len() < 30_000 {
        feed.extend(night.step());
    }
    let (held, store, mut at) = handed_in(&feed, random);

    // Nothing else of the hall is read.
    let mut hall = random.bytes(HALL_LENGTH);
    hall[..4].copy_from_slice(&n.to_be_bytes());
    hall[4..4 + MASKS_LENGTH].copy_from_slice(&masks_bytes(&masks));
    let mut script = state(FROM_START, &hall, held, &store);
    let (_, mut monitor) = started(script[..].try_into().expect("a state"));
    let calls = 20 + random.below(200) as u16;
    script.extend(calls.to_be_bytes());
    for _ in 0..calls {
        let piece = piece(&feed[at..], random);
        let mut outbox = outbox(random);
        script.extend(call(&piece, &outbox));
        let (_, used) = monitor.call(&piece, &mut outbox);
        // Now and then a careless caller drops what was not used, or sends it twice.
        let on = if random.one_in(60) { random.index(piece.len() + 1) } else { used };
        at = (at + on).min(feed.len());
    }
    script
}

/// The state that a script hands in.
pub fn state(kind: u8, hall: &[u8], held: u16, store: &[u8]) -> Vec<u8> {
    [&[kind], hall, &held.to_be_bytes(), store].concat()
}

/// One call of a script.
pub fn call(piece: &[u8], outbox: &[u8]) -> Vec<u8> {
    [&(piece.len() as u16).to_be_bytes(), piece, &[outbox.len() as u8], outbox].concat()
}

/// A claimed count, a store, and where in the feed the caller goes on.
fn handed_in(feed: &[u8], random: &mut Random) -> (u16, [u8; STORE_LENGTH], usize) {
    let some = random.index(MOST_HELD + 1);
    let over = STORE_LENGTH + random.index(65_536 - STORE_LENGTH);
    let held = random.pick(&[0, 1, 58, 59, 60, 615, 617, 618, 619, 65_535, some, some, over]) as u16;
    let real = if usize::from(held) > MOST_HELD { 0 } else { usize::from(held) };
    let mut store: [u8; STORE_LENGTH] = feed[..STORE_LENGTH].try_into().expect("619 bytes");
    match random.below(5) {
        // The front of the feed; behind the held bytes more of it, junk or zeros.
        0 => {}
        1 => store[real..].copy_from_slice(&random.junk(STORE_LENGTH - real)),
        2 => store[real..].fill(0),
        // A false major mark before it, so that its records are found one by one.
        3 => {
            store.rotate_right(2);
            store[..2].copy_from_slice(&[MARK, MAJOR]);
            return (held, store, 0);
        }
        _ => store.copy_from_slice(&random.junk(STORE_LENGTH)),
    }
    (held, store, real)
}

fn piece(feed: &[u8], random: &mut Random) -> Vec<u8> {
    let any = random.index(LONGEST_PIECE + 1);
    let length = random.pick(&[0, 1, 1, 2, 58, 59, 60, 118, 615, 618, 619, 620, 700, any, LONGEST_PIECE]);
    if random.one_in(40) {
        return random.junk(length);
    }
    feed[..length.min(feed.len())].to_vec()
}

fn outbox(random: &mut Random) -> Vec<u8> {
    const FIT: usize = REPORT_LENGTH;
    let any = random.index(FIT + 7);
    let large = random.index(256);
    let length = random.pick(&[FIT - 1, FIT, FIT, FIT, FIT, FIT + 1, FIT + 6, 0, any, any, large]);
    random.bytes(length)
}
