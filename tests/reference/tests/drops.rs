//! Close bits that are dropped: the nights of it, which bits go and which stay, and that nothing else changes.

mod common;

use common::{driver_on, with_major, Post, ALL, FULL_MAP, MAP, ONE_OF_EACH};
use reference::hall::{Hall, Masks, BOTH_WAYS, COUNT_ENDED, OUTBOX_SHORT, REPEAT, STALE, TAKEN, WRONG_KIND};
use reference::random::Random;
use reference::record::{Record, StringMajor};
use reference::report::REPORT_LENGTH;
use reference::state::{hall_from, HALL_LENGTH};

/// What a major record says of each string.
fn strings(record: &mut Record) -> &mut [StringMajor; 4] {
    &mut record.major.as_mut().expect("a major record").strings
}

/// The record with this drop byte of string `s`.
fn dropping(mut record: Record, s: usize, drops: u8) -> Record {
    strings(&mut record)[s].drops = drops;
    record
}

fn with_path(mut record: Record, path: u8) -> Record {
    record.path = path;
    record
}

/// Jets of string 0 bad at 25, 50 and 75, and quiet cycles up to 99.
fn closed_at_75(masks: Masks, jets: u32, close: u8) -> Post {
    let mut post = Post::over(masks);
    for (n, close) in [(25, 0), (50, 0), (75, close)] {
        post.quiet_until(n - 1);
        assert_eq!(post.take(&driver_on(n, 0, jets)).close, [close, 0, 0, 0], "cycle {n}");
    }
    post.quiet_until(99);
    post
}

/// A post before cycle 100 in which every close bit is set.
fn all_closed() -> Post {
    let mut post = Post::over(FULL_MAP);
    post.quiet_until(99);
    post.monitor.hall.strings.iter_mut().for_each(|string| string.close = ALL.into());
    post
}

/// The hall with these close words.
fn with_close(mut hall: Hall, close: [u32; 4]) -> Hall {
    for (string, close) in hall.strings.iter_mut().zip(close) {
        string.close = close;
    }
    hall
}

fn close_words(hall: &Hall) -> [u32; 4] {
    [0, 1, 2, 3].map(|s| hall.strings[s].close)
}

#[test]
fn a_drop_at_100_with_the_jet_good_takes_the_bit_away() {
    let mut post = closed_at_75(MAP, 2, 1);
    let report = post.take(&dropping(Record::quiet(100), 0, 1));
    assert_eq!((report.close[0], report.fail[0]), (0, 2));
    post.quiet_until(124);
    assert_eq!(post.take(&Record::quiet(125)).close[0], 0);
}

#[test]
fn a_drop_at_100_with_the_jet_still_bad_leaves_the_bit_there() {
    let mut post = closed_at_75(MAP, 2, 1);
    assert_eq!(post.take(&dropping(driver_on(100, 0, 2), 0, 1)).close[0], 1);
}

#[test]
fn a_drop_under_a_path_fault_is_lost_and_has_to_be_asked_for_again() {
    let mut post = closed_at_75(MAP, 2, 1);
    assert_eq!(post.take(&with_path(dropping(Record::quiet(100), 0, 1), 1)).close[0], 1);
    post.quiet_until(125);
    assert_eq!(post.take(&Record::quiet(126)).close[0], 1);
    post.quiet_until(149);
    assert_eq!(post.take(&dropping(Record::quiet(150), 0, 1)).close[0], 0);
}

#[test]
fn a_drop_of_one_manifold_leaves_the_others() {
    let mut post = closed_at_75(FULL_MAP, ONE_OF_EACH, ALL);
    assert_eq!(post.take(&dropping(Record::quiet(100), 0, 0x04)).close[0], 0xFB);
}

#[test]
fn manifold_7_is_closed_and_dropped_as_manifold_0_is() {
    let mut post = closed_at_75(FULL_MAP, 0x8000_0000, 0x80);
    assert_eq!(post.take(&dropping(Record::quiet(100), 0, 0x7F)).close[0], 0x80);
    post.quiet_until(124);
    assert_eq!(post.take(&dropping(driver_on(125, 0, 0x8000_0000), 0, 0x80)).close[0], 0);
    for (n, close) in [(150, 0), (175, 0x80)] {
        post.quiet_until(n - 1);
        assert_eq!(post.take(&driver_on(n, 0, 0x8000_0000)).close[0], close, "cycle {n}");
    }
}

#[test]
fn a_drop_of_a_manifold_with_no_close_bit_changes_nothing() {
    for jets in [0, 2] {
        let mut asking = Post::over(MAP);
        let mut quiet = Post::over(MAP);
        for n in [25, 50] {
            let record = driver_on(n, 0, jets);
            assert_eq!(asking.take(&dropping(record.clone(), 0, ALL)), quiet.take(&record));
            assert_eq!(asking.monitor, quiet.monitor);
        }
    }
    let mut post = closed_at_75(FULL_MAP, 0x0110_0110, 0x66);
    assert_eq!(post.take(&dropping(Record::quiet(100), 0, 0x99)).close[0], 0x66);
}

#[test]
fn each_drop_byte_of_each_string_takes_away_what_it_names_and_no_more() {
    let closed = all_closed();
    for s in 0..4 {
        for drops in 0..=ALL {
            let mut post = closed.clone();
            let mut wanted = [ALL; 4];
            wanted[s] = ALL & !drops;
            assert_eq!(post.take(&dropping(Record::quiet(100), s, drops)).close, wanted, "string {s}");
        }
    }
}

#[test]
fn each_string_has_its_own_byte() {
    let mut record = Record::quiet(100);
    for (s, drops) in [0x01, 0x82, 0x3C, 0x00].into_iter().enumerate() {
        record = dropping(record, s, drops);
    }
    assert_eq!(all_closed().take(&record).close, [0xFE, 0x7D, 0xC3, 0xFF]);
}

#[test]
fn strings_under_a_path_fault_lose_their_drops_and_the_others_do_not() {
    for path in 0..=0x0F {
        let mut post = all_closed();
        let mut record = with_path(Record::quiet(100), path);
        for s in 0..4 {
            record = dropping(record, s, ALL);
        }
        let wanted = [0, 1, 2, 3].map(|s| if (path >> s) % 2 == 1 { ALL } else { 0 });
        assert_eq!(post.take(&record).close, wanted, "path {path:x}");
        post.take(&Record::quiet(101));
        assert_eq!(close_words(&post.monitor.hall), wanted.map(u32::from));
    }
}

#[test]
fn a_drop_in_the_record_by_which_the_path_is_back_is_done() {
    let mut post = closed_at_75(MAP, 2, 1);
    post.take(&driver_on(100, 0, 2));
    post.quiet_until(123);
    post.take(&with_path(Record::quiet(124), 1));
    // The row of bad majors has ended with the fault.
    assert_eq!(post.take(&dropping(driver_on(125, 0, 2), 0, 1)).close[0], 0);
}

#[test]
fn a_bit_that_is_dropped_comes_back_by_three_bad_majors() {
    let mut post = closed_at_75(MAP, 2, 1);
    post.take(&dropping(Record::quiet(100), 0, 1));
    for (n, close) in [(125, 0), (150, 0), (175, 1), (200, 1)] {
        post.quiet_until(n - 1);
        assert_eq!(post.take(&driver_on(n, 0, 2)).close[0], close, "cycle {n}");
    }
}

#[test]
fn the_three_bad_majors_may_reach_back_before_the_drop() {
    // Jet 2 is bad from 75 on, and the drop comes at its second time.
    let mut post = Post::over(MAP);
    for (n, jets, drops, close) in
        [(25, 2, 0, 0), (50, 2, 0, 0), (75, 6, 0, 1), (100, 4, 1, 0), (125, 4, 0, 1)]
    {
        post.quiet_until(n - 1);
        assert_eq!(post.take(&dropping(driver_on(n, 0, jets), 0, drops)).close[0], close, "cycle {n}");
    }
    // A drop at each of the three, long before or with the close: the last wins.
    for asked in [25, 50, 75] {
        let mut post = Post::over(MAP);
        for (n, close) in [(25, 0), (50, 0), (75, 1)] {
            post.quiet_until(n - 1);
            let drops = if n == asked { 1 } else { 0 };
            assert_eq!(post.take(&dropping(driver_on(n, 0, 2), 0, drops)).close[0], close, "cycle {n}");
        }
    }
}

#[test]
fn a_manifold_that_is_dropped_while_another_is_bad_stays_dropped() {
    let mut post = closed_at_75(FULL_MAP, 0x0011, 0x03);
    // Jet 4 of manifold 1 is still bad, jet 0 of manifold 0 is good.
    assert_eq!(post.take(&dropping(driver_on(100, 0, 0x0010), 0, 0x03)).close[0], 0x02);
    post.quiet_until(124);
    assert_eq!(post.take(&dropping(driver_on(125, 0, 0x0010), 0, 0x01)).close[0], 0x02);
}

#[test]
fn over_a_missed_major_the_bit_does_not_come_back_at_once() {
    let mut post = closed_at_75(MAP, 2, 1);
    for (n, drops, close) in [(125, 1, 0), (150, 0, 0), (175, 0, 1)] {
        assert_eq!(post.take(&dropping(driver_on(n, 0, 2), 0, drops)).close[0], close, "cycle {n}");
    }
}

#[test]
fn other_requests_of_the_same_record_are_heard_before_the_recheck() {
    for (inhibit, re_enable, close) in [(0, 2, 0), (2, 0, 1), (0, 1, 1)] {
        let mut record = with_major(100, 0, |major| (major.inhibit, major.re_enable) = (inhibit, re_enable));
        record.strings[0].driver = 2;
        let mut post = closed_at_75(MAP, 2, 1);
        assert_eq!(post.take(&dropping(record, 0, 1)).close[0], close);
    }
    // A commanded jet is never bad.
    let mut record = driver_on(100, 0, 2);
    (record.strings[0].commanded, record.strings[0].pressure) = (2, 2);
    assert_eq!(closed_at_75(MAP, 2, 1).take(&dropping(record, 0, 1)).close[0], 0);
}

#[test]
fn a_drop_in_a_record_answered_7_is_not_done_and_without_the_conflict_it_is() {
    for s in 0..4 {
        let mut post = all_closed();
        let before = post.monitor.clone();
        let mut record = dropping(Record::quiet(100), s, ALL);
        strings(&mut record)[0].inhibit = 1;
        let clean = record.clone();
        strings(&mut record)[0].re_enable = 1;
        let refused = post.send(&record);
        assert_eq!((refused.answer, refused.close), (BOTH_WAYS, [ALL; 4]));
        assert_eq!(post.monitor, before);
        let mut wanted = [ALL; 4];
        wanted[s] = 0;
        let taken = post.take(&clean);
        assert_eq!((taken.fail[0], taken.close), (1, wanted));
    }
}

#[test]
fn a_drop_in_any_other_record_that_is_refused_is_not_done() {
    let mut post = all_closed();
    post.take(&Record::quiet(100));
    let asking = dropping(Record::quiet(0), 2, ALL);
    for (wire, answer) in
        [(75, STALE), (100 + 32_768, STALE), (100, REPEAT), (101, WRONG_KIND), (124, WRONG_KIND)]
    {
        let before = post.monitor.clone();
        let report = post.send(&Record { wire, ..asking.clone() });
        assert_eq!((report.answer, report.close), (answer, [ALL; 4]), "wire cycle {wire}");
        assert_eq!(post.monitor, before);
    }
    let bytes = Record { wire: 125, ..asking.clone() }.bytes();
    assert_eq!(post.monitor.call(&bytes, &mut [0; REPORT_LENGTH - 1]), (OUTBOX_SHORT, 0));
    assert_eq!(close_words(&post.monitor.hall), [0xFF; 4]);
    assert_eq!(post.monitor.call(&bytes, &mut [0; REPORT_LENGTH]), (TAKEN, 619));
    assert_eq!(close_words(&post.monitor.hall), [0xFF, 0xFF, 0, 0xFF]);

    // 4,294,967,300 is a multiple of 25.
    let mut post = all_closed();
    post.monitor.hall.n = u32::MAX - 1;
    let report = post.send(&Record { wire: 4, ..asking });
    assert_eq!((report.answer, report.close), (COUNT_ENDED, [ALL; 4]));
}

/// Any hall and any record: close bits alone depend on the drop bytes, and do so as step 5 says.
#[test]
fn nothing_of_any_hall_but_the_named_close_bits_changes() {
    let mut random = Random(29);
    for _ in 0..1_000 {
        let bytes: [u8; HALL_LENGTH] = random.bytes(HALL_LENGTH).try_into().expect("a hall's bytes");
        let mut before = hall_from(&bytes);
        before.n = before.n / 25 * 25 + 24;
        let mut unasking = Record::of_values(true, &random.bytes(615));
        unasking.wire = (before.n + 1) as u16;
        for string in strings(&mut unasking) {
            (string.re_enable, string.drops) = (!string.inhibit, 0);
        }
        let mut asking = unasking.clone();
        strings(&mut asking).iter_mut().for_each(|string| string.drops = random.word() as u8);

        let after = |mut hall: Hall, record: &Record| {
            assert_eq!(hall.settle(record), TAKEN);
            hall
        };
        let gained = close_words(&after(with_close(before.clone(), [0; 4]), &unasking));
        let wanted = [0, 1, 2, 3].map(|s| {
            let lost = if (asking.path >> s) % 2 == 1 { 0 } else { strings(&mut asking)[s].drops };
            before.strings[s].close & !u32::from(lost) | gained[s]
        });
        let asked = after(before.clone(), &asking);
        assert_eq!(close_words(&asked), wanted);
        assert_eq!(asked, with_close(after(before, &unasking), wanted));
    }
}

#[test]
fn a_manifold_without_jets_loses_its_bit_too() {
    let mut post = Post::over(MAP);
    post.monitor.hall.strings[2].close = 0xFFFF_FFFF;
    assert_eq!(post.take(&dropping(Record::quiet(25), 2, 0xF3)).close[2], 0x0C);
    assert_eq!(post.monitor.hall.strings[2].close, 0xFFFF_FF0C);
    assert_eq!(post.take(&dropping(Record::quiet(50), 2, ALL)).close[2], 0);
    assert_eq!(post.monitor.hall.strings[2].close, 0xFFFF_FF00);
}
