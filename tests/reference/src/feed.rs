//! Runs over whole feeds, as the program does.

use crate::hall::{Hall, Masks, EMPTY_MAP, NOTHING_SETTLED, TAKEN};
use crate::jet::MANIFOLDS;
use crate::monitor::Monitor;
use crate::reader::look_and_tell;
use crate::record::Record;
use crate::report::REPORT_LENGTH;
use std::array;

/// Four strings, and four bytes for each mask.
pub const MASKS_LENGTH: usize = 4 * STRING_MASKS_LENGTH;
const STRING_MASKS_LENGTH: usize = 4 * MANIFOLDS;

/// String by string, manifold 0 first, high byte first.
pub fn masks_from(bytes: &[u8; MASKS_LENGTH]) -> Masks {
    let mask = |s: usize, i: usize| {
        let at = STRING_MASKS_LENGTH * s + 4 * i;
        u32::from_be_bytes([bytes[at], bytes[at + 1], bytes[at + 2], bytes[at + 3]])
    };
    [0, 1, 2, 3].map(|s| array::from_fn(|i| mask(s, i)))
}

pub fn masks_bytes(masks: &Masks) -> [u8; MASKS_LENGTH] {
    let bytes: Vec<u8> = masks.iter().flatten().flat_map(|mask| mask.to_be_bytes()).collect();
    bytes.try_into().expect("a mask has four bytes")
}

/// A start over the map that these bytes are. Bytes of any other number are no map: they settle nothing, and the
/// monitor is a fresh one over the empty map.
pub fn start_from(bytes: &[u8]) -> (u8, Monitor) {
    match bytes.try_into() {
        Ok(masks) => Monitor::start(masks_from(masks)),
        Err(_) => (NOTHING_SETTLED, Monitor::start(EMPTY_MAP).1),
    }
}

/// Calls until the piece is used up and nothing held settles; adds the reports.
pub fn settle_piece(monitor: &mut Monitor, mut piece: &[u8], reports: &mut Vec<u8>) {
    loop {
        let mut outbox = [0; REPORT_LENGTH];
        let (answer, used) = monitor.call(piece, &mut outbox);
        if answer == NOTHING_SETTLED {
            return;
        }
        piece = &piece[used..];
        reports.extend(outbox);
    }
}

/// All reports for the program's whole input; none if the masks are short or refused.
pub fn run(input: &[u8]) -> Vec<u8> {
    let mut reports = Vec::new();
    let (masks, feed) = input.split_at(MASKS_LENGTH.min(input.len()));
    let (answer, mut monitor) = start_from(masks);
    if answer == TAKEN {
        settle_piece(&mut monitor, feed, &mut reports);
    }
    reports
}

/// The masks of the program's input, and the records that settle in its feed, whatever they are answered.
pub fn records(input: &[u8]) -> (Masks, Vec<Record>) {
    records_and_lost(input, |_| {})
}

/// The same, and tells of each full record that is lost.
pub fn records_and_lost(input: &[u8], mut lost: impl FnMut(&[u8])) -> (Masks, Vec<Record>) {
    let (masks, feed) = input.split_first_chunk().expect("masks");
    let (mut held, mut records) = (Vec::new(), Vec::new());
    for byte in feed {
        held.push(*byte);
        while let Some(record) = look_and_tell(&mut held, &mut lost) {
            records.push(record);
        }
    }
    (masks_from(masks), records)
}

/// Plays the records that settle, from fresh, and shows each: its answer, and the hall before it and after it.
pub fn play(input: &[u8], mut show: impl FnMut(u8, &Hall, &Record, &Hall)) {
    let (masks, records) = records(input);
    let mut hall = Hall::fresh(&masks);
    for record in &records {
        let before = hall.clone();
        let answer = hall.settle(record);
        show(answer, &before, record, &hall);
    }
}
