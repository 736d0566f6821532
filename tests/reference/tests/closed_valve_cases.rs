//! The cases of re-enables behind closed valves are counted where they are met, and nowhere else.

mod common;

use common::{driver_on, with_major, FULL_MAP};
use reference::cases::EACH_MANIFOLD;
use reference::closed_valve_cases::ClosedValveCases;
use reference::feed::masks_bytes;
use reference::hall::Hall;
use reference::jet::MANIFOLDS;
use reference::record::Record;

const EACH: &str = "a re-enable ignored: each manifold of each string";
const BY_JET: &str =
    "ignored, the valve closed before: a jet that was good then, one failed before, one good then and \
                      inhibited since, one inhibited before";
const AS_IT_CLOSES: &str =
    "ignored in the record that closes the valve: a good jet, a failed one, one with a re-enable in force";
const AS_IT_OPENS: &str =
    "done in the record that opens the valve: a jet that was good when it closed, one failed \
                           before, an inhibited one";
const BESIDE: &str = "ignored, and one done: in the same string, for the same manifold of another string";
const INHIBITED: &str =
    "an inhibit done behind a closed valve: a jet good when it closed, one failed before, one whose \
                         manifold has a re-enable ignored";
const BOTH_WAYS: &str =
    "7 by a jet named both ways: behind a valve that is closed, that the record closes, that it opens";
const OPENS_LATER: &str =
    "a valve opens after a re-enable was ignored: the jet is good again, is failed as when it \
                           closed, was good then and is inhibited";
const PATH_IS_BACK: &str =
    "the path is back by that record: ignored, the good copy's valve closed, open; done, the good copy's closed";
const UNLIKE: &str = "unlike the good copy: ignored, its valve open; done, its valve closed";
const CLOSES: &str =
    "a close bit set behind a closed valve, by jets with a re-enable ignored in that record, by such before it";
const DISTANCE: &str = "ignored where d is 1, 2 to 25, more";

/// Manifold 1, of jets 4 to 7, is closed in string 2.
fn closed(mut record: Record) -> Record {
    record.strings[2].valves = 0xFD;
    record
}

fn asking(n: u64, inhibit: u32, re_enable: u32) -> Record {
    with_major(n, 2, |major| (major.inhibit, major.re_enable) = (inhibit, re_enable))
}

fn with_path(record: Record, path: u8) -> Record {
    Record { path, ..record }
}

/// Whatever was met at all.
fn met(cases: impl ToString) -> Vec<String> {
    let is_met = |line: &&str| {
        let (_, counts) = line.rsplit_once('[').expect("a case has counts");
        counts.contains(|character| ('1'..='9').contains(&character))
    };
    cases.to_string().lines().filter(is_met).map(str::to_owned).collect()
}

fn met_by(records: &[Record]) -> Vec<String> {
    let feed: Vec<u8> = records.iter().flat_map(Record::bytes).collect();
    let mut cases = ClosedValveCases::of_feeds();
    cases.add_feed(&[&masks_bytes(&FULL_MAP)[..], &feed].concat());
    met(cases)
}

/// The line of manifold 1 of string 2.
fn each(times: u64) -> String {
    let mut counts = [0; EACH_MANIFOLD];
    counts[2 * MANIFOLDS + 1] = times;
    format!("{EACH}: {counts:?}")
}

fn line(case: &str, counts: &[u64]) -> String {
    format!("{case}: {counts:?}")
}

#[test]
fn re_enables_behind_open_valves_meet_nothing() {
    let others =
        [closed(Record::quiet(24)), closed(asking(25, 0, 0xF0F)), Record::quiet(50), asking(75, 0, 0xFF)];
    assert_eq!(met_by(&others), [""; 0]);
    // Nor does one that is not heard, or for another string.
    let lost = with_path(closed(asking(25, 0, 0xF0)), 0x04);
    let wrong_kind = Record { wire: 26, ..closed(asking(25, 0, 0xF0)) };
    let elsewhere = closed(with_major(50, 3, |major| major.re_enable = 0xF0));
    assert_eq!(met_by(&[lost, wrong_kind, elsewhere]), [""; 0]);
}

#[test]
fn jets_of_each_kind_behind_a_valve_that_was_closed() {
    // Jet 4 is inhibited before the closing, jet 5 failed on, jet 6 inhibited since, jet 7 none of these.
    let mut before = asking(25, 0x10, 0);
    before.strings[2].driver = 0x20;
    let night = [
        before,
        driver_on(50, 2, 0x20),
        closed(Record::quiet(51)),
        closed(asking(75, 0x40, 0)),
        closed(asking(100, 0, 0x1F0)),
        Record::quiet(101),
    ];
    assert_eq!(
        met_by(&night),
        [
            each(1),
            line(BY_JET, &[1, 1, 1, 1]),
            line(BESIDE, &[1, 0]),
            line(INHIBITED, &[1, 0, 0]),
            line(OPENS_LATER, &[1, 1, 1]),
            line(DISTANCE, &[0, 1, 0]),
        ]
    );
    let failed = [&night[..3], &[closed(asking(75, 0x20, 0x40))]].concat();
    assert_eq!(
        met_by(&failed),
        [
            each(1),
            line(BY_JET, &[1, 0, 0, 0]),
            line(INHIBITED, &[0, 1, 1]),
            line(UNLIKE, &[1, 0]),
            line(DISTANCE, &[0, 1, 0]),
        ]
    );
}

#[test]
fn in_the_record_that_moves_the_valve() {
    let mut before = asking(25, 0x10, 0x20);
    before.strings[2].driver = 0x40;
    let closing = [before, driver_on(50, 2, 0x40), closed(asking(75, 0, 0xE0))];
    assert_eq!(met_by(&closing), [each(1), line(AS_IT_CLOSES, &[1, 1, 1]), line(DISTANCE, &[0, 1, 0])]);
    let opening = [&closing[..2], &[closed(Record::quiet(75)), asking(100, 0, 0xF0)]].concat();
    assert_eq!(met_by(&opening), [line(AS_IT_OPENS, &[1, 1, 1])]);
}

#[test]
fn beside_one_done_for_the_same_manifold_of_another_string() {
    let mut record = closed(asking(25, 0, 0x10));
    record.major.as_mut().unwrap().strings[0].re_enable = 0x80;
    assert_eq!(
        met_by(&[closed(Record::quiet(24)), record]),
        [
            each(1),
            line(BY_JET, &[1, 0, 0, 0]),
            line(BESIDE, &[0, 1]),
            line(UNLIKE, &[1, 0]),
            line(DISTANCE, &[1, 0, 0]),
        ]
    );
}

#[test]
fn named_both_ways() {
    let both_ways = asking(25, 0x10, 0x10);
    let closed_before = closed(Record::quiet(1));
    assert_eq!(met_by(&[closed_before.clone(), closed(both_ways.clone())]), [line(BOTH_WAYS, &[1, 0, 0])]);
    assert_eq!(met_by(&[closed(both_ways.clone())]), [line(BOTH_WAYS, &[0, 1, 0])]);
    assert_eq!(met_by(&[closed_before, both_ways.clone()]), [line(BOTH_WAYS, &[0, 0, 1])]);
    assert_eq!(met_by(&[both_ways]), [""; 0]);
}

#[test]
fn where_the_path_is_back() {
    let fault = with_path(Record::quiet(49), 0x04);
    let ignored = [closed(Record::quiet(25)), fault.clone(), closed(asking(50, 0, 0x10))];
    assert_eq!(
        met_by(&ignored),
        [each(1), line(BY_JET, &[1, 0, 0, 0]), line(PATH_IS_BACK, &[1, 0, 0]), line(DISTANCE, &[1, 0, 0])]
    );
    let closes_again =
        [Record::quiet(25), closed(Record::quiet(26)), fault.clone(), closed(asking(50, 0, 0x10))];
    assert_eq!(
        met_by(&closes_again),
        [each(1), line(AS_IT_CLOSES, &[1, 0, 0]), line(PATH_IS_BACK, &[0, 1, 0]), line(DISTANCE, &[1, 0, 0])]
    );
    let done = [closed(Record::quiet(25)), fault, asking(50, 0, 0x10)];
    assert_eq!(met_by(&done), [line(AS_IT_OPENS, &[1, 0, 0]), line(PATH_IS_BACK, &[0, 0, 1])]);
}

#[test]
fn where_the_good_copy_has_the_valve_closed() {
    let opened = [closed(Record::quiet(25)), Record::quiet(26), asking(50, 0, 0x10)];
    assert_eq!(met_by(&opened), [line(UNLIKE, &[0, 1])]);
}

#[test]
fn close_bits_behind_a_closed_valve() {
    let bad = |n, drivers, re_enable| {
        let mut record = closed(asking(n, 0, re_enable));
        record.strings[2].driver = drivers;
        record
    };
    let at_third = [bad(25, 0x10, 0), bad(50, 0x10, 0), bad(75, 0x10, 0x10)];
    assert!(met_by(&at_third).contains(&line(CLOSES, &[1, 0])));
    let at_second = [bad(25, 0x10, 0), bad(50, 0x10, 0x10), bad(75, 0x10, 0)];
    assert!(met_by(&at_second).contains(&line(CLOSES, &[0, 1])));
    // Not where another jet asks for it too, or it is set already.
    let two = [bad(25, 0x30, 0), bad(50, 0x30, 0), bad(75, 0x30, 0x10)];
    let again = [bad(25, 0x10, 0), bad(50, 0x10, 0), bad(75, 0x10, 0), bad(100, 0x10, 0x10)];
    for night in [&two[..], &again] {
        assert!(!met_by(night).iter().any(|line| line.starts_with(CLOSES)));
    }
}

#[test]
fn halls_handed_in() {
    let mut hall = Hall::fresh(&FULL_MAP);
    hall.n = 24;
    let string = &mut hall.strings[2];
    string.valves = 0xFD;
    string.jets[4].re_enabled = true;
    // Jet 5 stands on manifold 7 too, jet 0 on manifold 1.
    (string.jets[5].manifolds[7], string.jets[0].manifolds[1]) = (true, true);
    let met_by = |jets| {
        let (mut cases, mut after) = (ClosedValveCases::of_halls(), hall.clone());
        let record = closed(asking(25, 0, jets));
        let answer = after.settle(&record);
        cases.add(answer, &hall, &record, &after);
        met(cases)
    };
    let as_handed_in = "ignored: the jet is good and stays so, its re-enable is in force and stays so";
    let of_several =
        "ignored, the jet on several manifolds: the lowest closed, the highest open; the reverse";
    assert!(met_by(0x10).contains(&line(as_handed_in, &[1, 1])));
    assert!(met_by(0x20).contains(&line(of_several, &[1, 0])));
    assert!(met_by(0x01).contains(&line(of_several, &[0, 1])));
    assert_eq!(met_by(0x02), [""; 0]);
}
