//! Rules that no night of document 01 shows.

mod common;

use common::{no_pressure, with, with_major, Post, MAP, WIDE_MAP};
use reference::hall::{EMPTY_MAP, NOTHING_SETTLED, OUTBOX_SHORT, TAKEN};
use reference::maps::masks_of;
use reference::monitor::STORE_LENGTH;
use reference::record::Record;
use reference::report::REPORT_LENGTH;
use reference::Monitor;

#[test]
fn overlapping_masks_give_6_and_the_empty_map() {
    let mut masks = WIDE_MAP;
    masks[3] = masks_of(&[1, 2, 4, 9]);
    assert_eq!(Monitor::start(masks), (6, Monitor::start(EMPTY_MAP).1));
}

#[test]
fn records_with_reserved_bits_or_large_quantities_are_dropped() {
    let mut path = Record::quiet(1);
    path.path = 0x10;
    let mut quantity = Record::quiet(25);
    quantity.major.as_mut().unwrap().quantities[2][1] = 1_001;
    for bytes in [path, quantity].map(|record| record.bytes()) {
        let (_, mut monitor) = Monitor::start(MAP);
        assert_eq!(monitor.call(&bytes, &mut [0; REPORT_LENGTH]), (NOTHING_SETTLED, bytes.len()));
        assert_eq!(monitor.held, 0);
    }
}

#[test]
fn path_fault_freezes_the_string_and_recovery_brings_the_good_copy_back() {
    let mut post = Post::over(WIDE_MAP);
    post.take(&with_major(25, 0, |major| major.inhibit = 8));
    for (n, fail) in [(26, 8), (27, 8), (28, 9)] {
        assert_eq!(post.take(&no_pressure(n, 0, 1)).fail[0], fail);
    }
    let mut broken = with_major(50, 0, |major| major.inhibit = 2);
    broken.path = 1;
    broken.strings[0].valves = 0;
    assert_eq!(post.take(&broken).fail[0], 9);
    // The good copy of 25 comes back; the request of 50 is lost.
    assert_eq!(post.take(&Record::quiet(51)).fail[0], 8);
}

#[test]
fn inhibit_and_re_enable_undo_each_other() {
    let mut post = Post::over(MAP);
    for (n, inhibit, re_enable, fail) in [(25, 3, 4, 3), (50, 4, 1, 6), (75, 1, 2, 5), (100, 0, 0, 5)] {
        let record = with_major(n, 0, |major| (major.inhibit, major.re_enable) = (inhibit, re_enable));
        assert_eq!(post.take(&record).fail[0], fail, "cycle {n}");
    }
}

#[test]
fn re_enabled_jet_does_not_fail_until_its_valve_closes() {
    let mut post = Post::over(MAP);
    post.take(&with_major(25, 0, |major| major.re_enable = 1));
    for n in 26..=29 {
        assert_eq!(post.take(&no_pressure(n, 0, 1)).fail[0], 0);
    }
    assert_eq!(post.take(&with(30, 0, |words| words.valves = 0xFE)).fail[0], 0x0F);
    for (n, fail) in [(31, 0), (32, 0), (33, 1)] {
        assert_eq!(post.take(&no_pressure(n, 0, 1)).fail[0], fail);
    }
}

#[test]
fn claim_above_618_holds_nothing_but_answer_5_gives_it_back() {
    for claim in [619, 65_535] {
        let (_, mut monitor) = Monitor::start(MAP);
        monitor.hand_in(7, claim, [0x52; STORE_LENGTH]);
        let before = monitor.clone();
        assert_eq!(monitor.call(&[1, 2, 3], &mut [0; REPORT_LENGTH - 1]), (OUTBOX_SHORT, 0));
        assert_eq!(monitor, before);
        assert_eq!(monitor.call(&[], &mut [0; REPORT_LENGTH]), (NOTHING_SETTLED, 0));
        assert_eq!((monitor.hall.n, monitor.held, monitor.store), (7, 0, [0; STORE_LENGTH]));
    }
}

#[test]
fn bytes_behind_a_settled_record_wait_and_those_behind_the_held_ones_go() {
    let mut store = [0xEE; STORE_LENGTH];
    store[..59].copy_from_slice(&Record::quiet(1).bytes());
    let (_, mut monitor) = Monitor::start(MAP);
    monitor.hand_in(0, 70, store);
    assert_eq!(monitor.call(&[1, 2, 3], &mut [0; REPORT_LENGTH]), (TAKEN, 0));
    assert_eq!(monitor.held, 11);
    assert_eq!(monitor.store[..], [vec![0xEE; 11], vec![0; 608]].concat());
    assert_eq!(monitor.call(&[1, 2, 3], &mut [0; REPORT_LENGTH]), (NOTHING_SETTLED, 3));
    assert_eq!(monitor.held, 0);
}
