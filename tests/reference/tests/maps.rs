//! Maps: thirty-two masks in 128 bytes, disjoint in a string; bytes that are no map; and maps of 64 bytes, which the
//! program does not know from others.

mod common;

use common::{driver_on, with, Post, FULL_MAP, NO_JETS};
use reference::feed::{masks_bytes, masks_from, run, start_from, MASKS_LENGTH};
use reference::hall::{Masks, EMPTY_MAP, MAP, NOTHING_SETTLED, TAKEN};
use reference::jet::MANIFOLDS;
use reference::maps::{each_shared_jet, masks, masks_of, refused_masks};
use reference::old_input::{old_input, OLD_MASKS_LENGTH};
use reference::random::Random;
use reference::record::Record;
use reference::report::{Report, REPORT_LENGTH};
use reference::Monitor;

#[test]
fn the_mask_of_manifold_i_of_string_s_stands_at_32_s_and_4_i() {
    assert_eq!(MASKS_LENGTH, 128);
    for s in 0..4 {
        for i in 0..MANIFOLDS {
            let mut bytes = [0; MASKS_LENGTH];
            bytes[32 * s + 4 * i..][..4].copy_from_slice(&[0x81, 0x02, 0x03, 0x04]);
            let mut masks = EMPTY_MAP;
            masks[s][i] = 0x8102_0304;
            assert_eq!((masks_from(&bytes), masks_bytes(&masks)), (masks, bytes));
        }
    }
}

#[test]
fn any_two_masks_of_a_string_that_share_a_jet_are_refused() {
    let refused = each_shared_jet();
    assert_eq!(refused.len(), 4 * 28);
    for masks in refused {
        assert_eq!(Monitor::start(masks), (MAP, Monitor::start(EMPTY_MAP).1), "{masks:x?}");
    }
    let mut masks = FULL_MAP;
    masks[2][6] |= masks[2][5];
    assert_eq!(Monitor::start(masks).0, MAP);
}

#[test]
fn masks_of_two_strings_may_share_all_jets() {
    assert_eq!(Monitor::start(FULL_MAP).0, TAKEN);
    let mut masks = EMPTY_MAP;
    masks[0][7] = u32::MAX;
    masks[1][0] = u32::MAX;
    assert_eq!(Monitor::start(masks).0, TAKEN);
}

#[test]
fn bytes_of_any_other_number_than_128_are_no_map() {
    let empty = Monitor::start(EMPTY_MAP).1;
    for length in (0..300).filter(|length| *length != MASKS_LENGTH) {
        for byte in [0x00, 0xFF] {
            assert_eq!(start_from(&vec![byte; length]), (NOTHING_SETTLED, empty.clone()), "{length}");
        }
    }
    assert_eq!(start_from(&masks_bytes(&FULL_MAP)), Monitor::start(FULL_MAP));
    assert_eq!(start_from(&[0xFF; MASKS_LENGTH]), (MAP, empty));
}

#[test]
fn a_short_map_and_a_refused_one_get_no_report() {
    let feed = Record::quiet(1).bytes();
    assert_eq!(run(&[&masks_bytes(&FULL_MAP)[..], &feed].concat()).len(), REPORT_LENGTH);
    assert_eq!(run(&[&[0xFF; MASKS_LENGTH], &feed[..]].concat()), []);
    for length in 0..MASKS_LENGTH {
        assert_eq!(run(&masks_bytes(&FULL_MAP)[..length]), []);
    }
}

/// A map of 64 bytes, four masks a string.
fn old_map(strings: [[u32; 4]; 4]) -> Vec<u8> {
    strings.iter().flatten().flat_map(|mask| mask.to_be_bytes()).collect()
}

/// Jets on one manifold of each string, and the valve bytes that name those.
const OLD_STRINGS: [[u32; 4]; 4] =
    [[0, 0xFF00, 0, 0], [0xFF, 0, 0, 0], [0, 0, 0x00FF_0000, 0], [0, 0xFF00, 0, 0]];
const OLD_VALVES: [u8; 4] = [0x02, 0x01, 0x04, 0x02];

/// Quiet but for these valves, and for jet 3 of string 1, whose driver is on from 20 on.
fn old_feed(valves: [u8; 4]) -> Vec<u8> {
    let record = |n| {
        let mut record = driver_on(n, 1, if n < 20 { 0 } else { 8 });
        record.strings.iter_mut().zip(valves).for_each(|(string, valves)| string.valves = valves);
        record.bytes()
    };
    (1..=80).flat_map(record).collect()
}

#[test]
fn a_map_of_64_bytes_may_be_accepted_with_64_bytes_of_the_feed() {
    let feed = old_feed(OLD_VALVES);
    let input = [old_map(OLD_STRINGS), feed.clone()].concat();
    let reports = run(&input);
    // The first two records are masks, wholly or in part.
    assert_eq!(reports.len(), 78 * REPORT_LENGTH);
    let first = Report::read(&reports);
    assert_eq!((first.answer, first.n), (TAKEN, 3));
    // Jets of string 1 are taken for string 0's, those of strings 2 and 3 for string 1's: behind closed valves.
    assert_eq!(first.fail[..2], [0x0000_00FF, 0x00FF_FF00]);
    let masks = masks_from(input[..MASKS_LENGTH].try_into().expect("128 bytes"));
    assert_eq!(masks[0], masks_of(&[0, 0xFF00, 0, 0, 0xFF]));
    assert_eq!((masks[2][0], masks[3][7]), (0x524D_0001, 0x4D00_0200));
    // The order to close manifold 0 of string 1, due at 75, never comes.
    assert!(reports.chunks(REPORT_LENGTH).all(|report| Report::read(report).close == [0; 4]));
    let with_zero_masks: Masks = OLD_STRINGS.map(|masks| masks_of(&masks));
    let reports = run(&[&masks_bytes(&with_zero_masks)[..], &feed].concat());
    let last = Report::read(&reports[reports.len() - REPORT_LENGTH..]);
    assert_eq!((reports.len(), last.fail, last.close), (80 * REPORT_LENGTH, [0, 8, 0, 0], [0, 1, 0, 0]));
}

#[test]
fn a_map_of_64_bytes_is_mostly_refused() {
    // By bytes of the feed; by strings beside each other that have the same jets.
    assert_eq!(run(&[old_map(OLD_STRINGS), old_feed([0x0F; 4])].concat()), []);
    let alike = [[0x0000_00FF, 0x0000_FF00, 0x00FF_0000, 0xFF00_0000]; 4];
    assert_eq!(run(&[old_map(alike), old_feed(OLD_VALVES)].concat()), []);
    assert_eq!(run(&old_map(OLD_STRINGS)), []);
}

#[test]
fn seeded_maps_of_64_bytes_are_accepted_or_refused_as_asked() {
    assert_eq!(OLD_MASKS_LENGTH, 64);
    for seed in 0..12 {
        let reports = run(&old_input(seed, true));
        assert!(Report::read(&reports).n > 2, "seed {seed}");
        assert_eq!(run(&old_input(seed, false)), [], "seed {seed}");
    }
}

#[test]
fn a_table_of_four_manifolds_says_of_the_others_that_they_are_closed() {
    // Without jets on them that shows nothing.
    let masks: Masks = [masks_of(&[0x0F, 0xF0, 0, 0xF00]); 4];
    let report = Post::over(masks).take(&with(1, 1, |words| words.valves = 0x0F));
    assert_eq!(report.fail, [0; 4]);
    let mut masks = masks;
    masks[1][4] = 0x8000_0000;
    let report = Post::over(masks).take(&with(1, 1, |words| words.valves = 0x0F));
    assert_eq!(report.fail, [0, 0x8000_0000, 0, 0]);
}

#[test]
fn seeded_maps_are_accepted_and_spoilt_ones_refused() {
    let mut random = Random(31);
    let mut numbers = [0; MANIFOLDS + 1];
    for _ in 0..500 {
        let masks = masks(&mut random);
        assert_eq!(Monitor::start(masks).0, TAKEN);
        masks.iter().for_each(|masks| numbers[masks.iter().filter(|mask| **mask != 0).count()] += 1);
        assert_eq!(Monitor::start(refused_masks(&mut random)).0, MAP);
    }
    assert!(numbers.iter().all(|number| *number > 50), "{numbers:?}");
    assert!(masks(&mut Random(4)).iter().any(|masks| *masks != NO_JETS));
}
