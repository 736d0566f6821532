//! The cases of manifolds, and of records lost by a reserved bit, are counted where they are met, and nowhere else.

mod common;

use common::{driver_on, no_pressure, with, with_major, FULL_MAP};
use reference::cases::EACH_MANIFOLD;
use reference::feed::masks_bytes;
use reference::hall::{Masks, EMPTY_MAP};
use reference::jet::MANIFOLDS;
use reference::lost_cases::LostCases;
use reference::manifold_cases::ManifoldCases;
use reference::maps::masks_of;
use reference::record::Record;

const CLOSE_BIT: &str = "a close bit set: each manifold of each string";
const CLOSES: &str = "a valve closes, and good jets fail: each manifold of each string";
const OPENS: &str = "a valve opens, and saved jets are good again: each manifold of each string";

/// Whatever was met at all.
fn met(cases: impl ToString) -> Vec<String> {
    let is_met = |line: &&str| {
        let (_, counts) = line.rsplit_once('[').expect("a case has counts");
        counts.contains(|character| ('1'..='9').contains(&character))
    };
    cases.to_string().lines().filter(is_met).map(str::to_owned).collect()
}

/// What is met by these records beyond what the map meets.
fn met_by(masks: Masks, records: &[Record]) -> Vec<String> {
    let mut cases = ManifoldCases::default();
    let feed: Vec<u8> = records.iter().flat_map(Record::bytes).collect();
    cases.add_feed(&[&masks_bytes(&masks)[..], &feed].concat());
    met(cases).into_iter().filter(|line| !line.starts_with("strings")).collect()
}

/// The counts of a case that is met once for each of these manifolds.
fn once(case: &str, manifolds: &[(usize, usize)]) -> String {
    let mut counts = [0; EACH_MANIFOLD];
    manifolds.iter().for_each(|(s, manifold)| counts[MANIFOLDS * s + manifold] = 1);
    format!("{case}: {counts:?}")
}

fn valves(n: u64, s: usize, valves: u8) -> Record {
    with(n, s, |words| words.valves = valves)
}

#[test]
fn maps() {
    let mut cases = ManifoldCases::default();
    let full = masks_of(&[0, 0, 0, u32::MAX]);
    cases.add_map(&[masks_of(&[]), full, masks_of(&[1, 0, 0, 0, 0xFF00]), FULL_MAP[0]]);
    let on_manifolds = "strings with jets on no manifold, on one, on two, .., on all";
    assert_eq!(
        met(cases),
        [
            format!("{on_manifolds}: [1, 1, 1, 0, 0, 0, 0, 0, 1]"),
            "strings with a full mask: [1]".into(),
            "strings with one jet on a manifold and eight or more on another: [1]".into(),
        ]
    );
}

#[test]
fn close_bits() {
    let bad = [25, 50, 75, 100].map(|n| driver_on(n, 2, 0x8000_0001));
    assert_eq!(met_by(FULL_MAP, &bad), [once(CLOSE_BIT, &[(2, 0), (2, 7)])]);
    assert_eq!(met_by(FULL_MAP, &bad[..2]), [""; 0]);
}

#[test]
fn valves_that_move() {
    let closed = valves(1, 3, 0x7F);
    assert_eq!(met_by(FULL_MAP, std::slice::from_ref(&closed)), [once(CLOSES, &[(3, 7)])]);
    let again = valves(2, 3, 0xFE);
    let all = [once(CLOSES, &[(3, 0), (3, 7)]), once(OPENS, &[(3, 7)])];
    assert_eq!(met_by(FULL_MAP, &[closed.clone(), again]), all);
    // No jets, another answer, a path fault: nothing that a report shows.
    assert_eq!(met_by(EMPTY_MAP, &[closed.clone(), Record::quiet(2)]), [""; 0]);
    assert_eq!(met_by(FULL_MAP, &[Record::quiet(1), closed.clone()]), [""; 0]);
    assert_eq!(met_by(FULL_MAP, &[Record { path: 0x08, ..closed }]), [""; 0]);
}

#[test]
fn valves_behind_which_no_jet_changes() {
    let mut masks = EMPTY_MAP;
    masks[3][7] = 0x01;
    let failed = [1, 2, 3].map(|n| no_pressure(n, 3, 0x01));
    let moves = [valves(4, 3, 0x7F), Record::quiet(5)];
    assert_eq!(met_by(masks, &[&failed[..], &moves].concat()), [""; 0]);
    // Good before it closes, and re-enabled in the record by which it opens.
    let re_enabled = with_major(25, 3, |major| major.re_enable = 0x01);
    assert_eq!(met_by(masks, &[valves(24, 3, 0x7F), re_enabled]), [once(CLOSES, &[(3, 7)])]);
}

/// What a record counts for that is lost.
fn met_in(bytes: &[u8]) -> Vec<String> {
    let mut cases = LostCases::default();
    cases.add_feed(&[&masks_bytes(&FULL_MAP)[..], bytes].concat());
    met(cases)
}

#[test]
fn records_lost_by_a_reserved_bit() {
    let with_path = |n, path| Record { path, ..Record::quiet(n) };
    let minor = "a minor lost by one reserved path bit alone: bit 4, 5, 6, 7";
    let major = "a major lost by one reserved path bit alone: bit 4, 5, 6, 7";
    assert_eq!(met_in(&with_path(1, 0x25).bytes()), [format!("{minor}: [0, 1, 0, 0]")]);
    assert_eq!(met_in(&with_path(25, 0x80).bytes()), [format!("{major}: [0, 0, 0, 1]")]);
    // No reserved bit, two of them, a wrong sum, and a quantity too large besides.
    let mut wrong_sum = with_path(25, 0x20).bytes();
    wrong_sum[618] ^= 1;
    let mut quantity = with_path(25, 0x20);
    quantity.major.as_mut().unwrap().quantities[0][0] = 1_001;
    let others = [with_path(25, 0x0F).bytes(), with_path(1, 0x30).bytes(), wrong_sum, quantity.bytes()];
    for bytes in others {
        assert_eq!(met_in(&bytes), [""; 0]);
    }
}
