//! The cases of close bits dropped, and of claims of held bytes, are counted where they are met, and nowhere else.

mod common;

use common::{driver_on, MAP, NO_JETS};
use reference::cases::EACH_MANIFOLD;
use reference::claim_cases::ClaimCases;
use reference::drop_cases::DropCases;
use reference::feed::masks_bytes;
use reference::hall::{Hall, Masks, COUNT_ENDED, OUTBOX_SHORT};
use reference::jet::MANIFOLDS;
use reference::maps::masks_of;
use reference::monitor::STORE_LENGTH;
use reference::record::Record;
use reference::report::REPORT_LENGTH;
use reference::Monitor;

/// One jet on each of manifolds 0 to 3 of string 1, and jet 0 on manifold 2 of string 3.
const MASKS: Masks = [NO_JETS, masks_of(&[0x01, 0x02, 0x04, 0x08]), NO_JETS, masks_of(&[0, 0, 0x01])];

const GONE: &str = "a drop carried out, and the bit is gone: each manifold of each string";
const SET_AGAIN: &str = "a drop carried out, and step 6 sets the bit again: each manifold of each string";
const LOST: &str = "a drop lost under a path fault, and the bit stays: each manifold of each string";

/// Drivers of string 1 on, and this drop byte.
fn asking(n: u64, drivers: u32, drops: u8) -> Record {
    let mut record = driver_on(n, 1, drivers);
    record.major.as_mut().expect("a major record").strings[1].drops = drops;
    record
}

fn with_path(mut record: Record, path: u8) -> Record {
    record.path = path;
    record
}

/// The records with which manifolds 0 to 3 of string 1 are closed at 75, and these behind them.
fn closed_then(records: &[Record]) -> Vec<u8> {
    let closed = [25, 50, 75].map(|n| driver_on(n, 1, 0x0F));
    closed.iter().chain(records).flat_map(Record::bytes).collect()
}

/// Whatever was met at all.
fn met(cases: impl ToString) -> Vec<String> {
    let is_met = |line: &&str| {
        let (_, counts) = line.rsplit_once('[').expect("a case has counts");
        counts.contains(|character| ('1'..='9').contains(&character))
    };
    cases.to_string().lines().filter(is_met).map(str::to_owned).collect()
}

fn met_in(feed: &[u8]) -> Vec<String> {
    let mut cases = DropCases::of_feeds();
    cases.add_feed(&[&masks_bytes(&MASKS)[..], feed].concat());
    met(cases)
}

/// A count for each manifold of each string, of which these are not 0.
fn counts(wanted: &[(usize, usize)]) -> String {
    let mut counts = [0; EACH_MANIFOLD];
    wanted.iter().for_each(|(s, manifold)| counts[MANIFOLDS * s + manifold] = 1);
    format!("{counts:?}")
}

#[test]
fn a_feed_that_asks_for_nothing_meets_nothing() {
    assert_eq!(met_in(&closed_then(&[Record::quiet(100), driver_on(125, 1, 0x0F)])), [""; 0]);
}

#[test]
fn a_bit_that_goes_and_one_that_is_set_again() {
    assert_eq!(
        met_in(&closed_then(&[asking(100, 0x02, 0x03)])),
        [
            format!("{GONE}: {}", counts(&[(1, 0)])),
            format!("{SET_AGAIN}: {}", counts(&[(1, 1)])),
            "a bit gone, and one not named stays: of its string, of its manifold in another string: [1, 0]"
                .into(),
            "a bit set by three bad majors, the drop at the third, at the second of them: [1, 0]".into(),
            "a bit gone where d is 1, 2 to 25, more: [0, 1, 0]".into(),
        ]
    );
}

#[test]
fn several_bits_and_a_path_that_is_back() {
    let back = with_path(Record::quiet(99), 0x02);
    assert_eq!(
        met_in(&closed_then(&[back, with_path(asking(100, 0, 0x0F), 0x08)])),
        [
            format!("{GONE}: {}", counts(&[(1, 0), (1, 1), (1, 2), (1, 3)])),
            "a bit gone: under a path fault of other strings, in the record by which its path is back: [1, 1]".into(),
            "bits gone: several of a string, of several strings: [1, 0]".into(),
            "a bit gone where d is 1, 2 to 25, more: [1, 0, 0]".into(),
        ]
    );
}

#[test]
fn a_drop_that_is_lost() {
    assert_eq!(
        met_in(&closed_then(&[with_path(asking(100, 0, 0x08), 0x02)])),
        [format!("{LOST}: {}", counts(&[(1, 3)]))]
    );
}

#[test]
fn strings_beside_each_other() {
    let mut both: Vec<Record> = [25, 50, 75].map(|n| driver_on(n, 1, 0x04)).into();
    both.iter_mut().for_each(|record| record.strings[3].driver = 0x01);
    let mut drop_both = asking(150, 0, 0x04);
    drop_both.major.as_mut().unwrap().strings[3].drops = 0x04;
    let bytes = |records: &[Record]| records.iter().flat_map(Record::bytes).collect::<Vec<u8>>();
    assert_eq!(
        met_in(&bytes(&[&both[..], &[asking(100, 0, 0x04)]].concat())),
        [
            format!("{GONE}: {}", counts(&[(1, 2)])),
            "a bit gone, and one not named stays: of its string, of its manifold in another string: [0, 1]"
                .into(),
            "a bit gone where d is 1, 2 to 25, more: [0, 1, 0]".into(),
        ]
    );
    assert_eq!(
        met_in(&bytes(&[&both[..], &[drop_both]].concat())),
        [
            format!("{GONE}: {}", counts(&[(1, 2), (3, 2)])),
            "bits gone: several of a string, of several strings: [0, 1]".into(),
            "a bit gone where d is 1, 2 to 25, more: [0, 0, 1]".into(),
        ]
    );
}

#[test]
fn where_no_bit_is_set() {
    let records: Vec<u8> = [(25, 0x01), (50, 0), (75, 0x01)]
        .iter()
        .flat_map(|(n, drops)| asking(*n, 0x01, *drops).bytes())
        .collect();
    assert_eq!(
        met_in(&records),
        [
            "a drop carried out where no bit is set: it stays clear, step 6 sets it: [1, 1]",
            "a bit set by three bad majors, the drop at the third, at the second of them: [1, 0]",
        ]
    );
}

#[test]
fn a_bit_that_comes_later() {
    let gone = format!("{GONE}: {}", counts(&[(1, 0)]));
    let named =
        "a bit gone, and one not named stays: of its string, of its manifold in another string: [1, 0]";
    let later = "a bit gone, and gained by a later record: [1]";
    let distance = "a bit gone where d is 1, 2 to 25, more: [0, 1, 0]";
    let long_after = [asking(100, 0, 0x01), asking(125, 1, 0), asking(150, 1, 0), asking(175, 1, 0)];
    assert_eq!(met_in(&closed_then(&long_after)), [&gone, named, later, distance]);

    // Jet 0 is good at 100, so that its row begins at 125: the drop stands at the second of the three.
    let in_between = [asking(100, 0, 0), asking(125, 1, 0), asking(150, 1, 0x01), asking(175, 1, 0)];
    let second = "a bit set by three bad majors, the drop at the third, at the second of them: [0, 1]";
    assert_eq!(met_in(&closed_then(&in_between)), [&gone, named, second, later, distance]);
}

#[test]
fn refused_records() {
    let mut both_ways = asking(100, 0, 0x01);
    let string = &mut both_ways.major.as_mut().unwrap().strings[3];
    (string.inhibit, string.re_enable) = (1, 1);
    let seven = "7, and a drop of a set bit: in all, the next record takes the cycle and the bit is gone";
    assert_eq!(met_in(&closed_then(&[both_ways.clone()])), [format!("{seven}: [1, 0]")]);
    assert_eq!(met_in(&closed_then(&[both_ways.clone(), Record::quiet(76)])), [format!("{seven}: [1, 0]")]);
    let sent_again = met_in(&closed_then(&[both_ways, asking(100, 0, 0x01)]));
    assert!(sent_again.contains(&format!("{seven}: [1, 1]")), "{sent_again:?}");

    let asking_at = |wire| Record { wire, ..asking(0, 0, 0x01) };
    assert_eq!(
        met_in(&closed_then(&[asking_at(50), asking_at(75), asking_at(76)])),
        ["a drop of a set bit, answered 1, 2, 4: [1, 1, 1]"]
    );
    let mut cases = DropCases::of_halls();
    let mut hall = Hall::fresh(&MASKS);
    (hall.n, hall.strings[1].close) = (u32::MAX, 0x0F);
    cases.add(COUNT_ENDED, &hall, &asking_at(4), &hall);
    cases.add(OUTBOX_SHORT, &hall, &asking_at(4), &hall);
    cases.add(OUTBOX_SHORT, &hall, &Record::quiet(25), &hall);
    assert_eq!(met(cases), ["a drop of a set bit, answered 3, 5: [1, 1]"]);
}

#[test]
fn what_only_halls_have() {
    let mut cases = DropCases::of_halls();
    let mut before = Hall::fresh(&MAP);
    before.strings[1].close = 0x102;
    let mut after = before.clone();
    let record = asking(25, 0, 0x02);
    let answer = after.settle(&record);
    cases.add(answer, &before, &record, &after);
    let said = met(cases);
    let line = "a bit gone of a manifold without jets, of a close word with bits above: [1, 1]";
    assert!(said.contains(&line.into()), "{said:?}");
}

/// The first call of a state with this claim, whose store begins with a major record of cycle 25.
fn claimed(claim: u16, outbox: usize) -> Vec<String> {
    let bytes = Record::quiet(25).bytes();
    let (_, mut before) = Monitor::start(MAP);
    let store: [u8; STORE_LENGTH] = bytes.clone().try_into().expect("619 bytes");
    before.hand_in(24, claim, store);
    let mut after = before.clone();
    let piece = &bytes[bytes.len().min(claim.into())..];
    let said = after.call(piece, &mut vec![0; outbox]);
    let mut cases = ClaimCases::default();
    cases.add(&before, piece, said, &after);
    met(cases)
}

#[test]
fn claims_of_held_bytes() {
    let held = "a claim of 615, 616, 617, 618, held, and to hold none would show";
    assert_eq!(claimed(614, REPORT_LENGTH), [""; 0]);
    assert_eq!(claimed(615, REPORT_LENGTH), [format!("{held}: [1, 0, 0, 0]")]);
    assert_eq!(claimed(618, REPORT_LENGTH), [format!("{held}: [0, 0, 0, 1]")]);
    let none = "a claim of 619, 620, 65,535, holding none, and a whole record in the store would show";
    assert_eq!(claimed(619, REPORT_LENGTH), [format!("{none}: [1, 0, 0]")]);
    assert_eq!(claimed(65_535, REPORT_LENGTH), [format!("{none}: [0, 0, 1]")]);
    let given_back = "a claim of 618, 619, given back with answer 5";
    assert_eq!(claimed(617, REPORT_LENGTH - 1), [""; 0]);
    assert_eq!(claimed(618, REPORT_LENGTH - 1), [format!("{given_back}: [1, 0]")]);
    assert_eq!(claimed(619, REPORT_LENGTH - 1), [format!("{given_back}: [0, 1]")]);
}

#[test]
fn a_claim_that_tells_nothing() {
    let (_, mut before) = Monitor::start(MAP);
    // Zeros are dropped, whether they are held or not; and no record stands in them.
    for claim in [618, 619] {
        before.hand_in(24, claim, [0; STORE_LENGTH]);
        let mut after = before.clone();
        let said = after.call(&[], &mut [0; REPORT_LENGTH]);
        let mut cases = ClaimCases::default();
        cases.add(&before, &[], said, &after);
        assert_eq!(met(cases), [""; 0]);
    }
}
