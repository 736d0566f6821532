//! Eight manifolds a string (document 02, order 7): each of them does what manifold 0 does, and all bits of the bytes
//! that name them count.

mod common;

use common::{driver_on, no_pressure, with, with_major, Post, ALL, FULL_MAP, NO_JETS, ONE_OF_EACH};
use reference::hall::{Hall, Masks, EMPTY_MAP, TAKEN};
use reference::jet::{ALL_MANIFOLDS, MANIFOLDS};
use reference::record::Record;

/// Jet 3 alone is mapped, to this manifold of string 1.
fn alone(manifold: usize) -> Masks {
    let mut masks = EMPTY_MAP;
    masks[1][manifold] = 0x08;
    masks
}

/// What is reported of string 1 after each record.
fn night(masks: Masks, records: &[Record]) -> Vec<(u32, u8)> {
    let mut post = Post::over(masks);
    let mut report = |record: &Record| {
        let report = post.take(record);
        (report.fail[1], report.close[1])
    };
    records.iter().map(&mut report).collect()
}

#[test]
fn at_fresh_all_eight_are_remembered_as_open() {
    for string in Hall::fresh(&FULL_MAP).strings {
        assert_eq!((string.valves, string.good_valves, string.close), (0xFF, 0xFF, 0));
    }
    let mut post = Post::over(FULL_MAP);
    assert_eq!(post.take(&with(1, 2, |words| words.valves = 0x0F)).fail, [0, 0, 0xFFFF_0000, 0]);
    assert_eq!(post.take(&with(2, 2, |words| words.valves = 0xF0)).fail, [0, 0, 0x0000_FFFF, 0]);
}

#[test]
fn each_manifold_closes_and_opens_as_manifold_0_does() {
    for manifold in 0..MANIFOLDS {
        let closed = |n| with(n, 1, |words| words.valves = !(1 << manifold));
        let records = [no_pressure(1, 1, 0), closed(2), closed(3), Record::quiet(4)];
        assert_eq!(night(alone(manifold), &records), [(0, 0), (8, 0), (8, 0), (0, 0)], "{manifold}");
        let failed: Vec<Record> = (1..=3).map(|n| no_pressure(n, 1, 8)).collect();
        let records = [&failed[..], &[closed(4), Record::quiet(5)]].concat();
        assert_eq!(night(alone(manifold), &records)[2..], [(8, 0); 3], "{manifold}");
        // The valves of the others move nothing.
        let others = with(1, 1, |words| words.valves = 1 << manifold);
        assert_eq!(night(alone(manifold), &[others]), [(0, 0)], "{manifold}");
    }
}

#[test]
fn each_manifold_gets_its_close_bit_and_loses_it_as_manifold_0_does() {
    for manifold in 0..MANIFOLDS {
        let close = 1 << manifold;
        let bad = [25, 50, 75].map(|n| driver_on(n, 1, 8));
        let drops = |n, drops| with_major(n, 1, |major| major.drops = drops);
        let records = [&bad[..], &[drops(100, !close), drops(125, close)]].concat();
        let said = night(alone(manifold), &records);
        assert_eq!(said, [(0, 0), (8, 0), (8, close), (8, close), (8, 0)], "manifold {manifold}");
    }
}

#[test]
fn a_full_mask_may_stand_in_any_one_of_the_eight() {
    for manifold in 0..MANIFOLDS {
        let mut masks = EMPTY_MAP;
        masks[1][manifold] = u32::MAX;
        let closed = with(1, 1, |words| words.valves = ALL & !(1 << manifold));
        assert_eq!(night(masks, &[closed, Record::quiet(2)]), [(u32::MAX, 0), (0, 0)], "{manifold}");
        let bad = [25, 50, 75].map(|n| driver_on(n, 1, u32::MAX));
        assert_eq!(night(masks, &bad)[2], (u32::MAX, 1 << manifold), "manifold {manifold}");
    }
}

#[test]
fn over_the_empty_map_nothing_is_reported() {
    let mut post = Post::over(EMPTY_MAP);
    for n in 1..=75 {
        let mut record = no_pressure(n, 3, 0);
        for string in &mut record.strings {
            (string.driver, string.valves) = (u32::MAX, (n % 251) as u8);
        }
        let report = post.take(&record);
        assert_eq!((report.fail, report.close), ([0; 4], [0; 4]), "cycle {n}");
    }
}

#[test]
fn jets_split_unevenly_are_closed_by_their_own_manifold() {
    let mut masks = EMPTY_MAP;
    masks[1][7] = 0x0000_0001;
    masks[1][6] = 0xFFFF_FF00;
    masks[1][0] = 0x0000_0002;
    let bad = [25, 50, 75].map(|n| driver_on(n, 1, 0x8000_0001));
    assert_eq!(night(masks, &bad)[2], (0x8000_0001, 0xC0));
    let valves = |n, valves| with(n, 1, |words| words.valves = valves);
    let moves = [valves(1, 0x7F), valves(2, 0xBF), valves(3, 0x3E), valves(4, 0xFF)];
    assert_eq!(night(masks, &moves), [(0x0000_0001, 0), (0xFFFF_FF00, 0), (0xFFFF_FF03, 0), (0, 0)]);
}

#[test]
fn every_valve_byte_fails_the_jets_of_closed_manifolds_and_no_others() {
    for s in 0..4 {
        for valves in 0..=ALL {
            let closed = |manifold: &usize| (valves >> manifold) % 2 != 1;
            let fail: u32 = (0..MANIFOLDS).filter(closed).map(|manifold| FULL_MAP[s][manifold]).sum();
            let mut wanted = [0; 4];
            wanted[s] = fail;
            let report = Post::over(FULL_MAP).take(&with(1, s, |words| words.valves = valves));
            assert_eq!(report.fail, wanted, "string {s}, valves {valves:02x}");
        }
    }
}

#[test]
fn every_close_byte_comes_by_bad_jets_of_its_manifolds() {
    for close in 0..=ALL {
        let is_bad = |manifold: &usize| (close >> manifold) % 2 == 1;
        let jets: u32 =
            (0..MANIFOLDS).filter(is_bad).map(|manifold| ONE_OF_EACH & FULL_MAP[3][manifold]).sum();
        let mut post = Post::over(FULL_MAP);
        post.take(&driver_on(25, 3, jets));
        post.take(&driver_on(50, 3, jets));
        assert_eq!(post.take(&driver_on(75, 3, jets)).close, [0, 0, 0, close]);
    }
}

#[test]
fn bits_above_the_manifolds_name_nothing() {
    let mut hall = Hall::fresh(&FULL_MAP);
    hall.n = 24;
    let string = &mut hall.strings[0];
    (string.valves, string.close) = (!ALL_MANIFOLDS, 0xABCD_EF00);
    // All eight open, and no saved set has a jet.
    assert_eq!(hall.settle(&with_major(25, 0, |major| major.drops = ALL)), TAKEN);
    assert_eq!(hall.strings[0].reported_fail_word(), 0);
    assert_eq!((hall.strings[0].valves, hall.strings[0].close), (0xFF, 0xABCD_EF00));
    assert_eq!(hall.strings[0].close_byte(), 0);
}

#[test]
fn a_path_that_is_back_has_the_valves_and_saved_sets_of_the_good_copy() {
    let mut masks = EMPTY_MAP;
    masks[1] = NO_JETS;
    masks[1][7] = 0x0F;
    let closed = |n| with(n, 1, |words| words.valves = 0x7F);
    let lost = |n| Record { path: 0x02, ..Record::quiet(n) };
    // Closed in the good copy of 25, opened behind it, and open again when the path is back.
    let records = [closed(24), closed(25), Record::quiet(26), lost(27), Record::quiet(28)];
    assert_eq!(night(masks, &records), [(15, 0), (15, 0), (0, 0), (0, 0), (0, 0)]);
    let records = [closed(24), closed(25), Record::quiet(26), lost(27), closed(28)];
    assert_eq!(night(masks, &records)[4], (15, 0));
    // Jet 0 fails before the valve closes again: its place in the saved set comes back too.
    let fails = [26, 27, 28].map(|n| no_pressure(n, 1, 1));
    let later = [closed(29), lost(30), Record::quiet(31)];
    let records = [&[closed(24), closed(25)], &fails[..], &later].concat();
    assert_eq!(night(masks, &records)[4..], [(1, 0), (15, 0), (15, 0), (0, 0)]);
}
