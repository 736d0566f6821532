//! Halls handed in whole that no run reaches: "any other is stepped by these rules as it stands".

mod common;

use common::{driver_on, with, with_major, MAP, NO_JETS};
use reference::counted::Counted;
use reference::foreign::script;
use reference::foreign_cases::ForeignCases;
use reference::hall::{Hall, TAKEN};
use reference::jet::{bit, Jet};
use reference::maps::masks_of;
use reference::random::Random;
use reference::record::Record;
use reference::report::Report;
use reference::state::{hall_bytes, hall_from, HALL_LENGTH};

/// A hall over these masks of string 0, with this fail word and these valves there.
fn hall(masks: &[u32], fail: u32, valves: u32) -> Hall {
    let mut hall = Hall::fresh(&[masks_of(masks), NO_JETS, NO_JETS, NO_JETS]);
    put(&mut hall, fail, |jet| &mut jet.failed);
    hall.strings[0].valves = valves;
    hall
}

fn put(hall: &mut Hall, word: u32, place: impl Fn(&mut Jet) -> &mut bool) {
    for (number, jet) in hall.strings[0].jets.iter_mut().enumerate() {
        *place(jet) = bit(word, number);
    }
}

fn get(hall: &Hall, is_set: impl Fn(&Jet) -> bool) -> u32 {
    hall.strings[0].word(is_set)
}

fn take(hall: &mut Hall, record: &Record) -> Report {
    assert_eq!(hall.settle(record), TAKEN);
    Report::of(TAKEN, hall)
}

#[test]
fn the_whole_saved_set_leaves_the_fail_word_and_stays() {
    let mut hall = hall(&[0x0F], 0x0001_001F, 0xFE);
    put(&mut hall, 0x0001_0013, |jet| &mut jet.saved[0]);
    assert_eq!(take(&mut hall, &Record::quiet(1)).fail[0], 0x0C);
    assert_eq!(get(&hall, |jet| jet.failed), 0x0C);
    assert_eq!(get(&hall, |jet| jet.saved[0]), 0x0001_0013);
}

#[test]
fn closing_saves_none_but_the_manifolds_own_jets() {
    let mut hall = hall(&[0x0F], 0x04, 0xFF);
    put(&mut hall, 0xF0, |jet| &mut jet.saved[0]);
    take(&mut hall, &with(1, 0, |words| words.valves = 0xFE));
    assert_eq!((get(&hall, |jet| jet.failed), get(&hall, |jet| jet.saved[0])), (0x0F, 0x0B));
}

#[test]
fn where_masks_overlap_the_lowest_manifold_is_first() {
    // Both close: the second finds the shared jet failed.
    let mut both = hall(&[0x3, 0x6], 0, 0xFF);
    take(&mut both, &with(1, 0, |words| words.valves = 0xFC));
    assert_eq!((get(&both, |jet| jet.saved[0]), get(&both, |jet| jet.saved[1])), (0x3, 0x4));
    assert_eq!(get(&both, |jet| jet.failed), 0x7);
    // The first closes, the second opens: its saved jets are good again.
    let mut one = hall(&[0x3, 0x6], 0, 0xFD);
    put(&mut one, 0x6, |jet| &mut jet.saved[1]);
    take(&mut one, &with(1, 0, |words| words.valves = 0xFE));
    assert_eq!(get(&one, |jet| jet.failed), 0x1);
}

#[test]
fn a_jet_of_two_manifolds_closes_both() {
    let mut hall = hall(&[0x2, 0x2, 0x4], 0, 0xFF);
    hall.n = 24;
    hall.strings[0].close = 0x100;
    put(&mut hall, 0x2, |jet| &mut jet.recheck);
    assert_eq!(take(&mut hall, &driver_on(25, 0, 0x6)).close[0], 0x03);
    assert_eq!(hall.strings[0].close, 0x103);
}

#[test]
fn bits_of_jets_in_no_mask_are_stepped_and_not_reported() {
    let mut hall = hall(&[0x0F], 0x30, 0xFF);
    hall.n = 24;
    put(&mut hall, 0x10, |jet| &mut jet.re_enabled);
    put(&mut hall, 0x40, |jet| &mut jet.inhibited);
    put(&mut hall, 0x20, |jet| &mut jet.off_slots[0]);
    put(&mut hall, 0x20, |jet| &mut jet.on_slots[0]);
    let record = with_major(25, 0, |major| (major.inhibit, major.re_enable) = (0x81, 0x20));
    assert_eq!(take(&mut hall, &record).fail[0], 0x01);
    // Re-enabled 4 leaves the fail word, inhibited 6 joins it, failed 5 stays; no request reaches 5 or 7.
    assert_eq!(get(&hall, |jet| jet.failed), 0x61);
    assert_eq!(get(&hall, |jet| jet.good_failed), 0x61);
    assert_eq!(get(&hall, |jet| jet.inhibited), 0x41);
    assert_eq!(get(&hall, |jet| jet.re_enabled), 0x10);
    assert_eq!(get(&hall, |jet| jet.off_slots[1]), 0x20);
    assert_eq!(get(&hall, |jet| jet.on_slots[1]), 0x20);
}

#[test]
fn high_bits_of_the_valves_name_nothing() {
    let mut hall = hall(&[0x0F], 0, 0xFFFF_FFFF);
    hall.strings[0].path_fault = true;
    hall.strings[0].good_valves = 0xFF00_00FF;
    let mut broken = Record::quiet(1);
    broken.path = 1;
    assert_eq!(take(&mut hall, &broken).fail[0], 0);
    assert_eq!(hall.strings[0].valves, 0xFFFF_FFFF);
    assert_eq!(take(&mut hall, &Record::quiet(2)).fail[0], 0);
    assert_eq!((hall.strings[0].valves, hall.strings[0].good_valves), (0xFF, 0xFF00_00FF));
}

#[test]
fn a_hall_is_read_as_it_was_written() {
    let flags = [248, 365, 482, 599, 600, 601, 606, 607, 612, 613];
    let mut random = Random(7);
    for _ in 0..200 {
        let mut given: [u8; HALL_LENGTH] = random.bytes(HALL_LENGTH).try_into().expect("a hall's bytes");
        for place in flags {
            given[place] = random.pick(&[0, 0, 1, 2, 255]);
        }
        let mut written = given;
        for place in flags {
            written[place] = u8::from(given[place] != 0);
        }
        assert_eq!(hall_bytes(&hall_from(&given)), written);
    }
    assert_eq!(hall_bytes(&Hall::fresh(&MAP))[..8], [0, 0, 0, 0, 0, 0, 0, 0x0F]);
}

#[test]
fn random_halls_meet_every_case() {
    let (mut cases, mut counted) = (ForeignCases::default(), Counted::of_halls());
    for seed in 0..400 {
        script(seed, &mut cases, &mut counted);
    }
    let said = format!("{cases:?}").replace(['[', ']', '}'], ",");
    assert!(!said.contains(" 0,") && !said.contains(",0,"), "{said}");
}
