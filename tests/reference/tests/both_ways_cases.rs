//! The cases of jets named both ways are counted where they are met, and nowhere else.

mod common;

use common::{driver_on, WIDE_MAP};
use reference::both_ways_cases::BothWaysCases;
use reference::feed::masks_bytes;
use reference::hall::{Hall, Masks, COUNT_ENDED, OUTBOX_SHORT};
use reference::maps::masks_of;
use reference::record::{sum, Record};

/// The jets of string 3 are others.
const MASKS: Masks = [WIDE_MAP[0], WIDE_MAP[0], WIDE_MAP[0], masks_of(&[0, 0, 0x0F00])];

/// Inhibits and re-enables of string `s`.
fn asking(mut record: Record, s: usize, inhibit: u32, re_enable: u32) -> Record {
    let string = &mut record.major.as_mut().expect("a major record").strings[s];
    (string.inhibit, string.re_enable) = (inhibit, re_enable);
    record
}

fn with_path(mut record: Record, path: u8) -> Record {
    record.path = path;
    record
}

/// A major record, whatever its cycle, that names jet 0 of string 0 both ways.
fn named(wire: u16) -> Record {
    Record { wire, ..asking(Record::quiet(0), 0, 1, 1) }
}

/// The cases that were met at all.
fn met(cases: &BothWaysCases) -> Vec<String> {
    let is_met = |line: &&str| {
        let (_, counts) = line.rsplit_once('[').expect("a case has counts");
        counts.contains(|character| ('1'..='9').contains(&character))
    };
    cases.to_string().lines().filter(is_met).map(str::to_owned).collect()
}

fn met_in_feed(feed: &[u8]) -> Vec<String> {
    let mut cases = BothWaysCases::of_feeds();
    cases.add_feed(&[&masks_bytes(&MASKS)[..], feed].concat());
    met(&cases)
}

fn met_by(records: &[Record]) -> Vec<String> {
    met_in_feed(&records.iter().flat_map(Record::bytes).collect::<Vec<u8>>())
}

#[test]
fn one_jet_alone() {
    assert_eq!(
        met_by(&[asking(Record::quiet(25), 3, 0x0800, 0x08FF)]),
        [
            "7 by one jet alone, path in order: of string 0, 1, 2, 3: [0, 0, 0, 1]",
            "7 by one jet alone of several mapped: the lowest, the highest: [0, 1]",
            "7 by strings of which none is under a path fault, all are, some are: [1, 0, 0]",
            "7 where d is 1, 2 to 25, more: [0, 1, 0]",
        ]
    );
    assert_eq!(
        met_by(&[with_path(asking(Record::quiet(25), 1, 0x02, 0xFFFF_FF02), 0x02)]),
        [
            "7 by one jet alone, under a path fault: of string 0, 1, 2, 3: [0, 1, 0, 0]",
            "7 by strings of which none is under a path fault, all are, some are: [0, 1, 0]",
            "7 where d is 1, 2 to 25, more: [0, 1, 0]",
        ]
    );
}

#[test]
fn several_jets() {
    let one_string = asking(Record::quiet(25), 2, 0x11, 0x11);
    let two_strings = asking(with_path(one_string.clone(), 0x04), 0, 0x01, 0x01);
    assert_eq!(
        met_by(&[one_string, two_strings]),
        [
            "7 by several jets: of one string, of several: [1, 1]",
            "7 by strings of which none is under a path fault, all are, some are: [1, 0, 1]",
            "7 where d is 1, 2 to 25, more: [0, 2, 0]",
        ]
    );
}

#[test]
fn a_step_that_was_not_taken_and_the_cycle_after_it() {
    let bad = |n| driver_on(n, 2, 0x20);
    let refused = |n| asking(bad(n), 1, 0x04, 0x04);
    let demand_met = |records: &[Record], d: &str, also: &[&str]| {
        let wanted = [
            &[
                "7 by one jet alone, path in order: of string 0, 1, 2, 3: [0, 1, 0, 0]",
                "7 by strings of which none is under a path fault, all are, some are: [1, 0, 0]",
                &format!("7 where d is 1, 2 to 25, more: {d}"),
            ],
            also,
        ];
        assert_eq!(met_by(records), wanted.concat());
    };
    demand_met(
        &[bad(25), refused(50), bad(50)],
        "[0, 1, 0]",
        &[
            "7, and a step would have set a close bit, failed a jet: [0, 1]",
            "7, and its cycle is taken by the next record, is missed: [1, 0]",
        ],
    );
    demand_met(
        &[bad(25), bad(50), Record::quiet(74), refused(75), Record::quiet(76)],
        "[1, 0, 0]",
        &[
            "7, and a step would have set a close bit, failed a jet: [1, 0]",
            "7, and its cycle is taken by the next record, is missed: [0, 1]",
        ],
    );
    let later = "7, and its cycle is taken after other records: [1]";
    demand_met(&[refused(50), Record::quiet(24), bad(50)], "[0, 0, 1]", &[later]);
    demand_met(&[refused(50), Record::quiet(24)], "[0, 0, 1]", &[]);
}

#[test]
fn earlier_refusals() {
    let records = [Record::quiet(50), named(25), named(49), named(50), named(51)];
    assert_eq!(met_by(&records), ["a jet named both ways, answered 1, 2, 4: [2, 1, 1]"]);
    let mut cases = BothWaysCases::of_halls();
    let mut hall = Hall::fresh(&MASKS);
    hall.n = u32::MAX;
    cases.add(COUNT_ENDED, &hall, &named(4));
    cases.add(OUTBOX_SHORT, &hall, &named(4));
    cases.add(OUTBOX_SHORT, &hall, &Record::quiet(25));
    assert_eq!(met(&cases), ["a jet named both ways, answered 3, 5: [1, 1]"]);
}

#[test]
fn records_that_are_taken() {
    let in_no_mask = asking(Record::quiet(25), 2, 0xFFFF_0000, 0x8000_0000);
    let mapped_elsewhere = with_path(asking(Record::quiet(50), 3, 0x01, 0x01), 0x08);
    assert_eq!(
        met_by(&[in_no_mask, mapped_elsewhere]),
        [
            "taken, and jets in no mask named both ways: path in order, under a path fault: [1, 1]",
            "taken, and a jet in no mask named both ways that is mapped in another string: [1]",
        ]
    );

    let two_jets = asking(Record::quiet(25), 2, 0x01, 0x80);
    let two_strings = asking(asking(Record::quiet(50), 0, 0x02, 0), 1, 0, 0x02);
    let neither = asking(asking(Record::quiet(75), 0, 0x02, 0), 3, 0, 0x02);
    assert_eq!(
        met_by(&[two_jets, two_strings, neither]),
        ["taken, with inhibit and re-enable for two jets of a string, for one jet of two strings: [1, 1]"]
    );
}

#[test]
fn a_record_inside() {
    let mut hiding = named(25).bytes();
    hiding[57..57 + 59].copy_from_slice(&Record::quiet(1).bytes());
    hiding.truncate(617);
    hiding.extend(sum(&hiding).to_be_bytes());
    let cases = met_in_feed(&hiding);
    assert!(cases.contains(&"7, and a good record stands inside: [1]".into()), "{cases:?}");
}
