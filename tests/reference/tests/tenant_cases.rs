//! The cases of pairs of nights with the same tenant are counted where they are met, and nowhere else.

mod common;

use common::{driver_on, no_pressure, with, with_major, NO_JETS};
use reference::feed::masks_bytes;
use reference::hall::Masks;
use reference::maps::masks_of;
use reference::record::Record;
use reference::tenant::Tenant;
use reference::tenant_cases::TenantCases;
use reference::tenants::Pair;

/// The tenant has jet 0, on manifold 0 of string 1; the neighbour has jet 1, on manifold 1. String 2 has jet 0.
const MASKS: Masks = [NO_JETS, masks_of(&[1, 2]), masks_of(&[1]), NO_JETS];
const TENANT: Tenant = Tenant { string: 1, manifold: 0, mask: 1 };

/// What any pair meets with this map.
const ALWAYS: [&str; 5] = [
    "the tenant's string, 0 to 3: [0, 1, 0, 0]",
    "its manifold, 0 to 7: [1, 0, 0, 0, 0, 0, 0, 0]",
    "its jets: one, several, half of the string or more: [1, 0, 0]",
    "manifolds with jets on its string: two, three to seven, all eight: [1, 0, 0]",
    "jets of its string on no manifold: none, some: [0, 1]",
];

fn bytes(records: &[Record]) -> Vec<u8> {
    records.iter().flat_map(Record::bytes).collect()
}

/// The cases that this pair of feeds meets besides those: each by the begin of its name, with its counts.
fn met(feeds: [Vec<u8>; 2]) -> Vec<(String, String)> {
    let inputs = feeds.map(|feed| [&masks_bytes(&MASKS)[..], &feed].concat());
    let mut cases = TenantCases::default();
    cases.add(&Pair { tenant: TENANT, masks: MASKS, inputs });
    let shown = cases.to_string();
    let is_met = |line: &&str| line.rsplit_once('[').is_some_and(|(_, counts)| counts.contains('1'));
    let lines: Vec<&str> = shown.lines().filter(is_met).collect();
    assert_eq!(lines[..5], ALWAYS);
    let parts = |line: &&str| {
        let (name, counts) = line.rsplit_once(": [").expect("a case has counts");
        (name.split(':').next().expect("a name").into(), counts.trim_end_matches(']').into())
    };
    lines[5..].iter().map(parts).collect()
}

/// Both nights have these records.
fn in_both(records: &[Record]) -> Vec<(String, String)> {
    met([bytes(records), bytes(records)])
}

fn case(name: &str, counts: &str) -> (String, String) {
    (name.into(), counts.into())
}

fn with_path(mut record: Record) -> Record {
    record.path = 1 << 1;
    record
}

fn stuck() -> Vec<Record> {
    [25, 50, 75].map(|n| driver_on(n, 1, 1)).to_vec()
}

const MISSED: &str = "before a record that is taken";
const FAIL: &str = "its jets fail";
const CLOSED: &str = "a report with a failed jet and the close bit of its manifold";
const CLOSE_BIT: &str = "of its manifold";
const REQUESTS: &str = "its requests";

#[test]
fn quiet_nights_meet_nothing() {
    assert_eq!(in_both(&(1..=30).map(Record::quiet).collect::<Vec<_>>()), []);
}

#[test]
fn missed_cycles() {
    assert_eq!(in_both(&[Record::quiet(2)]), [case(MISSED, "1, 0")]);
    assert_eq!(in_both(&[Record::quiet(25), Record::quiet(50)]), [case(MISSED, "1, 0")]);
    assert_eq!(in_both(&[Record::quiet(26)]), [case(MISSED, "1, 1")]);
}

#[test]
fn ways_to_fail() {
    let off: Vec<Record> = (1..=3).map(|n| no_pressure(n, 1, 1)).collect();
    assert_eq!(in_both(&off), [case(FAIL, "1, 0, 0, 0")]);
    assert_eq!(in_both(&stuck()[..2]), [case(FAIL, "0, 1, 0, 0"), case(MISSED, "1, 0")]);
    for (word, counts) in [(63, "0, 0, 1, 0"), (0x8000, "0, 0, 1, 1")] {
        let leaks = [25, 50].map(|n| with_major(n, 1, |major| major.temperatures[0][1] = word));
        assert_eq!(in_both(&leaks), [case(FAIL, counts), case(MISSED, "1, 0")]);
    }
}

#[test]
fn the_neighbours_failures_are_not_the_tenants() {
    let off: Vec<Record> = (1..=3).map(|n| no_pressure(n, 1, 2)).collect();
    assert_eq!(in_both(&off), []);
    let stuck = [25, 50, 75].map(|n| driver_on(n, 1, 2));
    assert_eq!(in_both(&stuck), [case(MISSED, "1, 0")]);
}

#[test]
fn close_bits() {
    let dropping = |n| with_major(n, 1, |major| major.drops = 1);
    let rest = [case(FAIL, "0, 1, 0, 0"), case(MISSED, "1, 0")];
    let closed = |cases: &[(String, String)]| [&[case(CLOSED, "1")][..], cases, &rest].concat();
    assert_eq!(in_both(&stuck()), closed(&[]));
    let dropped = [stuck(), vec![dropping(100)]].concat();
    assert_eq!(in_both(&dropped), closed(&[case(CLOSE_BIT, "1, 0, 0")]));
    let again = [125, 150, 175].map(|n| driver_on(n, 1, 1));
    assert_eq!(in_both(&[dropped, again.to_vec()].concat()), closed(&[case(CLOSE_BIT, "1, 1, 0")]));
    let lost = [stuck(), vec![with_path(dropping(100))]].concat();
    assert_eq!(in_both(&lost), closed(&[case(CLOSE_BIT, "0, 0, 1"), case("its path", "1, 0")]));
}

#[test]
fn paths_and_valves() {
    assert_eq!(in_both(&[with_path(Record::quiet(1))]), [case("its path", "1, 0")]);
    assert_eq!(in_both(&[with_path(Record::quiet(1)), Record::quiet(2)]), [case("its path", "1, 1")]);
    let closed = |n, manifold: u8| with(n, 1, |words| words.valves = !(1 << manifold));
    assert_eq!(in_both(&[closed(1, 0)]), [case("its valve", "1, 0")]);
    assert_eq!(in_both(&[closed(1, 0), Record::quiet(2)]), [case("its valve", "1, 1")]);
    assert_eq!(in_both(&[closed(1, 1), Record::quiet(2)]), []);
}

#[test]
fn requests() {
    let missed = case(MISSED, "1, 0");
    let inhibit = with_major(25, 1, |major| major.inhibit = 1);
    let re_enable = with_major(25, 1, |major| major.re_enable = 1);
    let mut ignored = re_enable.clone();
    ignored.strings[1].valves = !1;
    assert_eq!(in_both(&[inhibit]), [case(REQUESTS, "1, 0, 0"), missed.clone()]);
    assert_eq!(in_both(&[re_enable]), [case(REQUESTS, "0, 1, 0"), missed.clone()]);
    let valve = case("its valve", "1, 0");
    assert_eq!(in_both(&[ignored]), [valve, case(REQUESTS, "0, 0, 1"), missed.clone()]);
    assert_eq!(in_both(&[with_major(25, 1, |major| major.inhibit = 2)]), [missed]);
}

#[test]
fn what_is_not_the_tenants_differs() {
    let reports = |counts| case("reports differ", counts);
    let records = |counts| case("records taken differ", counts);
    let against_quiet = |record: Record| met([bytes(&[record]), bytes(&[Record::quiet(1)])]);
    assert_eq!(against_quiet(no_pressure(1, 1, 2)), [records("0, 0, 1, 0, 0, 0, 0, 0, 0, 0, 0")]);
    assert_eq!(against_quiet(driver_on(1, 1, 4)), [records("0, 0, 0, 0, 0, 0, 0, 0, 0, 0, 1")]);
    assert_eq!(against_quiet(driver_on(1, 2, 4)), [records("0, 1, 0, 0, 0, 0, 0, 0, 0, 0, 0")]);
    let closed = |s| with(1, s, |words| words.valves = 1);
    let neighbours = [reports("1, 0, 0, 0, 0, 0, 0"), records("0, 0, 0, 0, 0, 1, 0, 0, 0, 0, 0")];
    assert_eq!(against_quiet(closed(1)), neighbours);
    let of_others = with(1, 2, |words| words.valves = 0);
    assert_eq!(
        against_quiet(of_others),
        [reports("0, 0, 1, 0, 0, 0, 0"), records("0, 1, 0, 0, 0, 0, 0, 0, 0, 0, 0")]
    );
    for (one, other, counts) in [
        ([[20, 0], [7, 7], [0, 0]], [[0, 0], [0, 0], [0, 0]], "0, 0, 0, 0, 1, 1, 1"),
        ([[0, 0], [7, 7], [0, 0]], [[0, 0], [0, 0], [0, 0]], "0, 0, 0, 0, 0, 1, 0"),
        ([[0, 0], [0, 0], [1, 0]], [[0, 0], [0, 0], [2, 0]], "0, 0, 0, 0, 0, 0, 1"),
    ] {
        let feeds = [one, other].map(|quantities| {
            let mut record = Record::quiet(25);
            record.major.as_mut().expect("a major record").quantities = quantities;
            bytes(&[record])
        });
        assert_eq!(met(feeds), [case(MISSED, "1, 0"), reports(counts)]);
    }
}

#[test]
fn refused_records_and_lost_bytes() {
    let more = |counts| case("refused in one night more often", counts);
    let shows = |counts| case("a record refused, and its report shows", counts);
    let quiet = || bytes(&[Record::quiet(1)]);
    let then = |record: Record| [quiet(), record.bytes()].concat();
    assert_eq!(met([then(Record::quiet(0)), quiet()]), [more("1, 0, 0, 0")]);
    assert_eq!(met([quiet(), then(Record::quiet(1))]), [more("0, 1, 0, 0")]);
    let mut wrong_kind = Record::quiet(0);
    wrong_kind.wire = 2;
    assert_eq!(met([then(wrong_kind), quiet()]), [more("0, 0, 1, 0")]);
    assert_eq!(met([then(Record::quiet(1)), then(Record::quiet(1))]), []);

    let fails = || bytes(&(1..=3).map(|n| no_pressure(n, 1, 1)).collect::<Vec<_>>());
    let repeated = [fails(), Record::quiet(3).bytes()].concat();
    assert_eq!(met([fails(), repeated]), [case(FAIL, "1, 0, 0, 0"), more("0, 1, 0, 0"), shows("1, 0")]);
    let closed = [stuck(), vec![Record::quiet(75)]].concat();
    assert_eq!(in_both(&closed).last(), Some(&shows("1, 1")));

    let lost = |counts| case("bytes lost", counts);
    let noise = || [vec![0; 3], quiet()].concat();
    assert_eq!(met([noise(), quiet()]), [lost("1, 0, 0")]);
    assert_eq!(met([quiet(), noise()]), [lost("0, 1, 0")]);
    assert_eq!(met([noise(), noise()]), [lost("0, 0, 1")]);
}

#[test]
fn jets_named_both_ways() {
    let naming = |s: usize, jets| {
        with_major(25, s, |major| {
            major.inhibit = jets;
            major.re_enable = jets;
        })
    };
    let counted = |records: &[Record]| {
        let met = met([bytes(records), Vec::new()]);
        met.into_iter().find(|(name, _)| name.starts_with("answer 7")).map(|(_, counts)| counts)
    };
    assert_eq!(counted(&[naming(1, 2)]).as_deref(), Some("1, 0, 0, 0"));
    assert_eq!(counted(&[naming(2, 1)]).as_deref(), Some("0, 1, 0, 0"));
    assert_eq!(counted(&[naming(1, 1), Record::quiet(25)]).as_deref(), Some("0, 0, 1, 0"));
    assert_eq!(counted(&[naming(1, 2), Record::quiet(25)]).as_deref(), Some("1, 0, 0, 1"));
    assert_eq!(counted(&[naming(1, 2), Record::quiet(26)]).as_deref(), Some("1, 0, 0, 0"));
    assert_eq!(counted(&[naming(1, 4), Record::quiet(25)]), None);
}
