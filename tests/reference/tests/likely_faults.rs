//! Faults a builder is likely to make and that the nights of document 01 would let pass. The
//! nights themselves show the other three: the wrap, the false major and the reopened valve.

mod common;

use common::{driver_on, no_pressure, Post, MAP, WIDE_MAP};
use reference::hall::STALE;
use reference::record::Record;

#[test]
fn stale_record_does_not_shift_the_slots() {
    let mut post = Post::over(MAP);
    post.take(&no_pressure(1, 0, 1));
    post.take(&no_pressure(2, 0, 1));
    let before = post.monitor.clone();
    assert_eq!(post.send(&no_pressure(1, 0, 1)).answer, STALE);
    assert_eq!(post.send(&Record::quiet(1)).answer, STALE);
    assert_eq!(post.monitor, before);
    assert_eq!(post.take(&no_pressure(3, 0, 1)).fail[0], 1);
}

#[test]
fn one_jet_bad_twice_and_another_once_close_nothing() {
    let mut post = Post::over(MAP);
    for (n, jets, close) in [(25, 2, 0), (50, 2, 0), (75, 4, 0), (100, 4, 0), (125, 4, 1)] {
        post.quiet_until(n - 1);
        assert_eq!(post.take(&driver_on(n, 0, jets)).close[0], close, "cycle {n}");
    }
}

#[test]
fn one_path_recovers_and_the_other_strings_stay() {
    let mut post = Post::over(WIDE_MAP);
    for n in 1..=3 {
        let mut record = no_pressure(n, 1, 1);
        record.path = 1;
        post.take(&record);
    }
    assert_eq!(post.take(&Record::quiet(4)).fail, [0, 1, 0, 0]);
}
