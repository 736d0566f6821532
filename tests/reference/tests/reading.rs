//! Which records are read and which are lost: reserved bits, what is held of a record, and claims of it.

mod common;

use common::{with, with_major, Post, ALL, MAP};
use reference::hall::{NOTHING_SETTLED, TAKEN};
use reference::monitor::STORE_LENGTH;
use reference::record::{sum, Record};
use reference::report::{Report, REPORT_LENGTH};
use reference::Monitor;

/// Makes the sum right again.
fn summed(mut bytes: Vec<u8>) -> Vec<u8> {
    bytes.truncate(bytes.len() - 2);
    bytes.extend(sum(&bytes).to_be_bytes());
    bytes
}

#[test]
fn bits_4_to_7_of_the_path_byte_are_reserved() {
    for record in [Record::quiet(1), Record::quiet(25)] {
        for path in 0..=255 {
            let bytes = Record { path, ..record.clone() }.bytes();
            let (_, mut monitor) = Monitor::start(MAP);
            let answer = if path < 16 { TAKEN } else { NOTHING_SETTLED };
            assert_eq!(monitor.call(&bytes, &mut [0; REPORT_LENGTH]), (answer, bytes.len()), "{path:02x}");
            assert_eq!(monitor.hall.n, if path < 16 { record.wire.into() } else { 0 });
        }
    }
}

#[test]
fn no_bit_of_a_valve_byte_or_of_a_drop_byte_is_reserved() {
    for s in 0..4 {
        for byte in 0..=ALL {
            Post::over(MAP).take(&with(1, s, |words| words.valves = byte));
            Post::over(MAP).take(&with(25, s, |words| words.valves = byte));
            Post::over(MAP).take(&with_major(25, s, |major| major.drops = byte));
        }
    }
}

#[test]
fn a_reserved_bit_loses_the_record_and_not_what_stands_inside() {
    for bit in 4..8 {
        let mut bytes = Record { path: 1 << bit, ..Record::quiet(25) }.bytes();
        bytes[100..159].copy_from_slice(&Record::quiet(1).bytes());
        let bytes = summed(bytes);
        let (_, mut monitor) = Monitor::start(MAP);
        let mut outbox = [0; REPORT_LENGTH];
        assert_eq!(monitor.call(&bytes, &mut outbox), (TAKEN, 619));
        assert_eq!((Report::read(&outbox).n, monitor.held), (1, 619 - 159), "bit {bit}");
    }
}

#[test]
fn of_a_record_618_bytes_are_held_and_its_last_settles_it() {
    let bytes = with_major(25, 3, |major| major.drops = ALL).bytes();
    assert_eq!(bytes.len(), 619);
    let mut outbox = [0; REPORT_LENGTH];
    let (_, mut monitor) = Monitor::start(MAP);
    assert_eq!(monitor.call(&bytes[..618], &mut outbox), (NOTHING_SETTLED, 618));
    assert_eq!((monitor.held, &monitor.store[..]), (618, &[&bytes[..618], &[0]].concat()[..]));
    assert_eq!(monitor.call(&bytes[618..], &mut outbox), (TAKEN, 1));
    assert_eq!((monitor.held, monitor.store), (0, [0; STORE_LENGTH]));
}

#[test]
fn a_claim_of_up_to_618_is_held_and_one_of_619_is_not() {
    let bytes = with_major(25, 0, |major| major.drops = ALL).bytes();
    let store: [u8; STORE_LENGTH] = bytes.clone().try_into().expect("619 bytes");
    for claim in [614, 615, 616, 617, 618] {
        let (_, mut monitor) = Monitor::start(MAP);
        monitor.hall.strings[0].close = ALL.into();
        monitor.hand_in(24, claim, store);
        let rest = &bytes[claim.into()..];
        assert_eq!(monitor.call(rest, &mut [0; REPORT_LENGTH]), (TAKEN, rest.len()), "{claim}");
        assert_eq!(monitor.hall.strings[0].close, 0);
    }
    for claim in [619, 620, 65_535] {
        let (_, mut monitor) = Monitor::start(MAP);
        monitor.hand_in(24, claim, store);
        assert_eq!(monitor.call(&[], &mut [0; REPORT_LENGTH]), (NOTHING_SETTLED, 0), "{claim}");
        assert_eq!((monitor.held, monitor.store), (0, [0; STORE_LENGTH]));
    }
}

#[test]
fn a_major_without_drop_bytes_is_not_read() {
    let whole = Record::quiet(25).bytes();
    let short = summed([&whole[..601], &whole[605..]].concat());
    assert_eq!(short.len(), 615);
    let (_, mut monitor) = Monitor::start(MAP);
    let feed = [short, Record::quiet(26).bytes()].concat();
    let mut outbox = [0; REPORT_LENGTH];
    assert_eq!(monitor.call(&feed, &mut outbox), (TAKEN, feed.len()));
    assert_eq!((Report::read(&outbox).n, monitor.held), (26, 0));
}
