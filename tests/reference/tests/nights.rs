//! The nights to try of document 01, in its order, as orders 3, 6, 7 and 10 of document 02 amend them.

mod common;

use common::{driver_on, no_pressure, with, with_major, Post, MAP};
use reference::hall::{COUNT_ENDED, NOTHING_SETTLED, OUTBOX_SHORT, REPEAT, STALE, TAKEN};
use reference::monitor::STORE_LENGTH;
use reference::record::Record;
use reference::report::{Report, REPORT_LENGTH};
use reference::Monitor;

#[test]
fn first_record_gives_the_printed_report() {
    let mut record = vec![0x52, 0x4D, 0x00, 0x01, 0x00];
    for _ in 0..4 {
        record.extend([0; 12]);
        record.push(0xFF);
    }
    record.extend([0x04, 0x9C]);
    let mut expected = vec![0x52, 0x52, 0x00, 0x00, 0x00, 0x00, 0x01];
    expected.extend([0; 33]);

    let mut outbox = [0xEE; 40];
    assert_eq!(Post::over(MAP).monitor.call(&record, &mut outbox), (TAKEN, 59));
    assert_eq!(outbox[..], expected);
}

#[test]
fn no_pressure_at_1_2_3_fails_the_jet_at_3() {
    let mut post = Post::over(MAP);
    assert_eq!(post.take(&no_pressure(1, 0, 1)).fail[0], 0);
    assert_eq!(post.take(&no_pressure(2, 0, 1)).fail[0], 0);
    assert_eq!(post.take(&no_pressure(3, 0, 1)).fail, [1, 0, 0, 0]);
}

#[test]
fn no_pressure_at_1_2_4_5_6_fails_the_jet_at_6() {
    let mut post = Post::over(MAP);
    for (n, fail) in [(1, 0), (2, 0), (4, 0), (5, 0), (6, 1)] {
        assert_eq!(post.take(&no_pressure(n, 0, 1)).fail[0], fail, "cycle {n}");
    }
}

#[test]
fn driver_on_at_25_50_75_fails_at_50_and_closes_at_75() {
    let mut post = Post::over(MAP);
    for (n, fail, close) in [(25, 0, 0), (50, 2, 0), (75, 2, 1)] {
        post.quiet_until(n - 1);
        let report = post.take(&driver_on(n, 0, 2));
        assert_eq!((report.fail[0], report.close[0]), (fail, close), "cycle {n}");
    }
}

#[test]
fn driver_on_with_record_75_missing_closes_at_150() {
    let mut post = Post::over(MAP);
    for n in [25, 50] {
        post.quiet_until(n - 1);
        post.take(&driver_on(n, 0, 2));
    }
    post.quiet_until(74);
    post.take(&Record::quiet(76));
    for (n, close) in [(100, 0), (125, 0), (150, 1)] {
        post.quiet_until(n - 1);
        assert_eq!(post.take(&driver_on(n, 0, 2)).close[0], close, "cycle {n}");
    }
}

#[test]
fn valve_that_closes_and_opens_leaves_the_jet_that_failed_off() {
    let mut post = Post::over(MAP);
    for n in 1..=3 {
        post.take(&no_pressure(n, 0, 4));
    }
    assert_eq!(post.take(&with(4, 0, |words| words.valves = 0xFE)).fail[0], 0x0000_000F);
    assert_eq!(post.take(&Record::quiet(5)).fail[0], 0x0000_0004);
}

#[test]
fn temperatures_63_and_65535_and_32768_leak_and_64_and_32767_do_not() {
    for (word, fail) in [(63, 1), (64, 0), (65_535, 1), (32_768, 1), (32_767, 0)] {
        for words in [[word, 64], [64, word], [word, word]] {
            let mut post = Post::over(MAP);
            let record = |n| with_major(n, 0, |major| major.temperatures[0] = words);
            post.take(&record(25));
            assert_eq!(post.take(&record(50)).fail[0], fail, "{words:?}");
        }
    }
}

/// The night of the driver, with a temperature below zero in its place.
#[test]
fn temperature_65535_at_25_50_75_fails_at_50_and_closes_at_75() {
    for words in [[65_535, 64], [64, 65_535], [65_535, 65_535]] {
        let mut post = Post::over(MAP);
        for (n, fail, close) in [(25, 0, 0), (50, 2, 0), (75, 2, 1)] {
            post.quiet_until(n - 1);
            let report = post.take(&with_major(n, 0, |major| major.temperatures[1] = words));
            assert_eq!((report.fail[0], report.close[0]), (fail, close), "{words:?}, cycle {n}");
        }
    }
}

#[test]
fn wire_wraps_and_distances_from_32768_are_stale() {
    let mut post = Post::over(MAP);
    let report = post.send(&Record::quiet(32_768));
    assert_eq!((report.answer, report.n), (STALE, 0));
    for n in [32_767, 65_534, 65_535, 65_536] {
        let report = post.send(&Record::quiet(n));
        assert_eq!((report.answer, u64::from(report.n)), (TAKEN, n));
    }
}

#[test]
fn quantities_16_apart_are_balanced_17_are_not_and_equal_ones_name_fuel() {
    for (quantities, balance, lesser) in [
        ([[500, 516], [516, 500], [0, 16]], 0x20, [500, 500, 0]),
        ([[500, 517], [517, 500], [1_000, 983]], 0x67, [500, 500, 983]),
        ([[500, 500], [0, 0], [1_000, 1_000]], 0x00, [500, 0, 1_000]),
    ] {
        let mut record = Record::quiet(25);
        record.major.as_mut().unwrap().quantities = quantities;
        let report = Post::over(MAP).take(&record);
        assert_eq!((report.balance, report.lesser), (balance, lesser));
    }
}

#[test]
fn count_ends_at_4294967295() {
    let mut post = Post::over(MAP);
    post.monitor.hand_in(u32::MAX, 0, [0; STORE_LENGTH]);
    let next = post.send(&Record::quiet(u64::from(u32::MAX) + 1));
    assert_eq!((next.answer, next.n), (COUNT_ENDED, u32::MAX));
    let same = post.send(&Record::quiet(u64::from(u32::MAX)));
    assert_eq!((same.answer, same.n), (REPEAT, u32::MAX));
}

#[test]
fn outbox_of_39_bytes_is_short_and_40_are_enough() {
    let mut post = Post::over(MAP);
    let before = post.monitor.clone();
    let record = Record::quiet(1).bytes();
    let mut short = [0xEE; 39];
    assert_eq!(post.monitor.call(&record, &mut short), (OUTBOX_SHORT, 0));
    assert_eq!(short, [0xEE; 39]);
    assert_eq!(post.monitor, before);
    let mut enough = [0xEE; 40];
    assert_eq!(post.monitor.call(&record, &mut enough), (TAKEN, 59));
    assert_eq!(Report::read(&enough).n, 1);
}

#[test]
fn empty_piece_with_nothing_held_uses_nothing() {
    let mut post = Post::over(MAP);
    let before = post.monitor.clone();
    let mut outbox = [0xEE; REPORT_LENGTH];
    assert_eq!(post.monitor.call(&[], &mut outbox), (NOTHING_SETTLED, 0));
    assert_eq!(outbox, [0xEE; REPORT_LENGTH]);
    assert_eq!(post.monitor, before);
}

#[test]
fn false_major_gives_up_the_three_good_minors_inside() {
    let mut piece = vec![0x52, 0x4A];
    for n in 1..=3 {
        piece.resize(200 * n as usize - 150, 0);
        piece.extend(Record::quiet(n).bytes());
    }
    piece.resize(619, 0);

    let (_, mut monitor) = Monitor::start(MAP);
    let mut outbox = [0; REPORT_LENGTH];
    assert_eq!(monitor.call(&piece[..618], &mut outbox), (NOTHING_SETTLED, 618));
    assert_eq!(monitor.held, 618);
    for (piece, n) in [(&piece[618..], 1), (&[], 2), (&[], 3)] {
        assert_eq!(monitor.call(piece, &mut outbox), (TAKEN, piece.len()));
        assert_eq!(Report::read(&outbox).n, n);
    }
    assert_eq!(monitor.call(&[], &mut outbox), (NOTHING_SETTLED, 0));
    assert_eq!(monitor.held, 0);
}
