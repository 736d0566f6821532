//! The cases of the banks' differences, and of outboxes, are counted where they are met, and nowhere else.

mod common;

use common::MAP;
use reference::difference_cases::DifferenceCases;
use reference::feed::masks_bytes;
use reference::hall::{Hall, Module, COUNT_ENDED, NOTHING_SETTLED, OUTBOX_SHORT, REPEAT, TAKEN};
use reference::outbox_cases::OutboxCases;
use reference::record::Record;
use reference::report::REPORT_LENGTH;

const SIGN: &str = "brought by a major, each module: above 0, below 0, exactly 0";
const EXACT: &str = "brought, each module: exactly 16, 17, -16, -17, 256, -256, 1,000, -1,000";
const LARGE: &str = "brought, each module: above 255, below -255";
const UNLIKE: &str = "brought, each module: unlike those of both others";
const NEXT: &str =
    "one major after another, each module: from above 0 to below, from below to above, to 0, from 0";
const BALANCE: &str =
    "changed by a major, each module: it stays balanced, stays out of balance, comes out of it, comes into it";
const PATHS: &str =
    "changed by a major, each module: where the path of string 0, 1, 2, 3 alone has failed, where all have";
const OVER_MINOR: &str = "held over a minor, each module: above 0, below 0";
const OVER_MISSED: &str = "held over a minor behind a missed major, each module: other than 0";
const OVER_REFUSED: &str = "held over a record, each module, other than 0: answered 1, 2, 4, 7";
const OVER_ANOTHER: &str = "held over a major that says another, each module: answered 1, 2, 4, 7";
const OVER_ANOTHER_OF_HALLS: &str = "held over a major that says another, each module: answered 3, 5";
const UNFIT: &str = "handed in and unlike the balance, the lesser, beyond 1,000, each module";

/// A quiet major record for cycle `n` in which module 1 differs by this, and module 2 by 1.
fn weighing(n: u64, difference: i16) -> Record {
    let mut record = Record::quiet(n);
    let size = difference.unsigned_abs();
    let banks = if difference > 0 { [size, 0] } else { [0, size] };
    record.major.as_mut().expect("a major record").quantities = [[300, 300], banks, [1, 0]];
    record
}

/// Whatever was met of module 1: its names, and the variants of that module.
fn of_module_1(cases: impl ToString) -> Vec<(String, Vec<u64>)> {
    let counts = |line: &str| {
        let (name, counts) = line.strip_suffix(']').and_then(|line| line.rsplit_once(": [")).expect("a case");
        let counts: Vec<u64> = counts.split(", ").map(|count| count.parse().expect("a count")).collect();
        let third = counts.len() / 3;
        (name.to_owned(), counts[third..2 * third].to_vec())
    };
    let all = cases.to_string();
    all.lines().map(counts).filter(|(_, counts)| counts.iter().any(|count| *count > 0)).collect()
}

/// What these records meet, beyond the first so many of them.
fn met_beyond(first: usize, records: &[Record]) -> Vec<(String, Vec<u64>)> {
    let met = |records: &[Record]| {
        let mut cases = DifferenceCases::of_feeds();
        let feed: Vec<u8> = records.iter().flat_map(Record::bytes).collect();
        cases.add_feed(&[&masks_bytes(&MAP)[..], &feed].concat());
        of_module_1(cases)
    };
    let before = met(&records[..first]);
    let count_before = |name: &str, variant: usize| {
        before.iter().find(|(known, _)| known == name).map_or(0, |(_, counts)| counts[variant])
    };
    let beyond = |(name, counts): (String, Vec<u64>)| {
        let counts = counts.iter().enumerate().map(|(variant, count)| count - count_before(&name, variant));
        (name.clone(), counts.collect::<Vec<u64>>())
    };
    met(records).into_iter().map(beyond).filter(|(_, counts)| counts.iter().any(|count| *count > 0)).collect()
}

fn case(name: &str, counts: &[u64]) -> (String, Vec<u64>) {
    (name.into(), counts.to_vec())
}

#[test]
fn a_feed_without_majors_meets_nothing() {
    assert_eq!(met_beyond(0, &[Record::quiet(1), Record::quiet(1), Record::quiet(26)]), []);
}

#[test]
fn what_a_major_brings() {
    let met = |difference| met_beyond(0, &[weighing(25, difference)]);
    assert_eq!(met(0), [case(SIGN, &[0, 0, 1])]);
    let balanced = case(BALANCE, &[1, 0, 0, 0]);
    let unlike = case(UNLIKE, &[1]);
    let out = case(BALANCE, &[0, 0, 1, 0]);
    // Like that of module 2.
    assert_eq!(met(1), [case(SIGN, &[1, 0, 0]), balanced.clone()]);
    assert_eq!(met(15), [case(SIGN, &[1, 0, 0]), unlike.clone(), balanced.clone()]);
    for (difference, sign, exact, large) in [
        (16, [1, 0, 0], 0, None),
        (17, [1, 0, 0], 1, None),
        (-16, [0, 1, 0], 2, None),
        (-17, [0, 1, 0], 3, None),
        (256, [1, 0, 0], 4, Some([1, 0])),
        (-256, [0, 1, 0], 5, Some([0, 1])),
        (1_000, [1, 0, 0], 6, Some([1, 0])),
        (-1_000, [0, 1, 0], 7, Some([0, 1])),
    ] {
        let mut expected = vec![case(SIGN, &sign)];
        let mut counts = [0; 8];
        counts[exact] = 1;
        expected.push(case(EXACT, &counts));
        expected.extend(large.map(|counts| case(LARGE, &counts)));
        expected.push(unlike.clone());
        expected.push(if exact == 0 || exact == 2 { balanced.clone() } else { out.clone() });
        assert_eq!(met(difference), expected, "{difference}");
    }
    assert_eq!(met(-255), [case(SIGN, &[0, 1, 0]), unlike, out]);
}

#[test]
fn each_module_has_its_own_variants() {
    let mut record = Record::quiet(25);
    record.major.as_mut().expect("a major record").quantities = [[16, 0], [0, 2], [9, 9]];
    let mut cases = DifferenceCases::of_feeds();
    cases.add_feed(&[&masks_bytes(&MAP)[..], &record.bytes()].concat());
    let said = cases.to_string();
    assert!(said.contains(&format!("{SIGN}: [1, 0, 0, 0, 1, 0, 0, 0, 1]\n")), "{said}");
    assert!(said.contains(&format!("{UNLIKE}: [1, 1, 1]\n")), "{said}");
}

#[test]
fn one_major_after_another() {
    for (first, second, next, balance) in [
        (5, -5, [1, 0, 0, 0], Some([1, 0, 0, 0])),
        (-500, 5, [0, 1, 0, 0], Some([0, 0, 0, 1])),
        (500, 0, [0, 0, 1, 0], Some([0, 0, 0, 1])),
        (0, -500, [0, 0, 0, 1], Some([0, 0, 1, 0])),
        (20, 30, [0; 4], Some([0, 1, 0, 0])),
        (0, 0, [0; 4], None),
        (-20, -20, [0; 4], None),
    ] {
        let met = met_beyond(1, &[weighing(25, first), weighing(50, second)]);
        let of = |name: &str| met.iter().find(|(known, _)| known == name).map(|(_, counts)| &counts[..]);
        assert_eq!(of(NEXT), (next != [0; 4]).then_some(&next[..]), "{first} {second}");
        assert_eq!(of(BALANCE), balance.as_ref().map(|counts| &counts[..]), "{first} {second}");
    }
}

#[test]
fn path_faults() {
    let met = |path, difference| {
        let records = [weighing(25, 5), Record { path, ..weighing(50, difference) }];
        let met = met_beyond(1, &records);
        met.into_iter().find(|(name, _)| name == PATHS).map(|(_, counts)| counts)
    };
    assert_eq!(met(0b0001, 6), Some(vec![1, 0, 0, 0, 0]));
    assert_eq!(met(0b1000, 6), Some(vec![0, 0, 0, 1, 0]));
    assert_eq!(met(0b1111, 6), Some(vec![0, 0, 0, 0, 1]));
    assert_eq!(met(0b0111, 6), None);
    assert_eq!(met(0b0000, 6), None);
    // Not changed.
    assert_eq!(met(0b1111, 5), None);
}

#[test]
fn differences_held_over_minors() {
    let met = |difference, n| met_beyond(1, &[weighing(25, difference), Record::quiet(n)]);
    assert_eq!(met(5, 26), [case(OVER_MINOR, &[1, 0])]);
    assert_eq!(met(-5, 49), [case(OVER_MINOR, &[0, 1])]);
    assert_eq!(met(-5, 51), [case(OVER_MINOR, &[0, 1]), case(OVER_MISSED, &[1])]);
    assert_eq!(met(0, 51), []);
}

#[test]
fn differences_held_over_records_refused() {
    let met = |difference, record: Record| met_beyond(1, &[weighing(25, difference), record]);
    let refused = |counts| case(OVER_REFUSED, counts);
    let another = |counts| case(OVER_ANOTHER, counts);
    assert_eq!(met(5, Record::quiet(24)), [refused(&[1, 0, 0, 0])]);
    assert_eq!(met(5, weighing(25, 5)), [refused(&[0, 1, 0, 0])]);
    assert_eq!(met(5, weighing(25, 6)), [refused(&[0, 1, 0, 0]), another(&[0, 1, 0, 0])]);
    assert_eq!(met(0, weighing(25, 6)), [another(&[0, 1, 0, 0])]);
    assert_eq!(met(0, Record::quiet(24)), []);
    let at_26 = Record { wire: 26, ..weighing(25, -5) };
    assert_eq!(met(5, at_26), [refused(&[0, 0, 1, 0]), another(&[0, 0, 1, 0])]);
    let mut both_ways = weighing(50, 6);
    let string = &mut both_ways.major.as_mut().expect("a major record").strings[0];
    (string.inhibit, string.re_enable) = (1, 1);
    assert_eq!(met(5, both_ways), [refused(&[0, 0, 0, 1]), another(&[0, 0, 0, 1])]);
}

/// A hall before cycle `n + 1` with this module 1.
fn handed_in(n: u32, module: Module) -> Hall {
    let mut hall = Hall::fresh(&MAP);
    hall.n = n;
    hall.modules[1] = module;
    hall
}

/// What one call of this hall meets.
fn met_by(answer: u8, before: &Hall, record: &Record) -> Vec<(String, Vec<u64>)> {
    let mut after = before.clone();
    if answer != OUTBOX_SHORT {
        assert_eq!(after.settle(record), answer);
    }
    let mut cases = DifferenceCases::of_halls();
    cases.begin();
    cases.add(answer, before, record, &after);
    of_module_1(cases)
}

#[test]
fn halls_in_which_the_difference_does_not_fit() {
    let unfit = |place: &str, counts| case(&format!("{UNFIT}: {place}"), counts);
    let module = |out_of_balance, oxidizer_is_lesser, difference| Module {
        out_of_balance,
        oxidizer_is_lesser,
        lesser: 7,
        difference,
    };
    let minor = |module| met_by(TAKEN, &handed_in(0, module), &Record::quiet(1));
    assert_eq!(minor(module(false, true, 16)), [case(OVER_MINOR, &[1, 0])]);
    assert_eq!(minor(module(false, false, 0)), []);
    let over_minor = |counts| unfit("held over a minor", counts);
    assert_eq!(minor(module(true, false, 0)), [over_minor(&[1, 0, 0])]);
    assert_eq!(minor(module(false, true, -16)), [case(OVER_MINOR, &[0, 1]), over_minor(&[0, 1, 0])]);
    assert_eq!(minor(module(true, true, 1_000)), [case(OVER_MINOR, &[1, 0])]);
    assert_eq!(minor(module(true, true, 1_001)), [case(OVER_MINOR, &[1, 0]), over_minor(&[0, 0, 1])]);
    assert_eq!(minor(module(false, true, i16::MIN)), [case(OVER_MINOR, &[0, 1]), over_minor(&[1, 1, 1])]);

    let hall = handed_in(24, module(true, false, 0));
    assert_eq!(
        met_by(TAKEN, &hall, &weighing(25, 1)),
        [case(SIGN, &[1, 0, 0]), case(BALANCE, &[0, 0, 0, 1]), unfit("replaced by a major", &[1, 0, 0])]
    );
    // The same again, or a difference that another major brought.
    assert_eq!(met_by(TAKEN, &hall, &weighing(25, 0)), [case(SIGN, &[0, 0, 1])]);
    let mut cases = DifferenceCases::of_halls();
    let mut after = hall.clone();
    assert_eq!(after.settle(&weighing(25, 0)), TAKEN);
    cases.add(TAKEN, &hall, &weighing(25, 0), &after);
    cases.add(TAKEN, &hall, &Record::quiet(26), &hall);
    assert_eq!(of_module_1(&cases), [case(SIGN, &[0, 0, 1])]);
    cases.begin();
    cases.add(TAKEN, &hall, &Record::quiet(26), &hall);
    assert_eq!(of_module_1(&cases), [case(SIGN, &[0, 0, 1]), over_minor(&[1, 0, 0])]);
}

#[test]
fn halls_in_which_it_is_held_over_answers_3_and_5() {
    let fits = Module::default();
    let at_end = handed_in(u32::MAX - 20, fits);
    let over = |counts| case(OVER_ANOTHER_OF_HALLS, counts);
    assert_eq!(met_by(COUNT_ENDED, &at_end, &weighing(4_294_967_300, 5)), [over(&[1, 0])]);
    assert_eq!(met_by(COUNT_ENDED, &at_end, &weighing(4_294_967_300, 0)), []);
    assert_eq!(met_by(OUTBOX_SHORT, &handed_in(24, fits), &weighing(25, 5)), [over(&[0, 1])]);
    let unfit = handed_in(24, Module { out_of_balance: true, ..fits });
    let held = case(&format!("{UNFIT}: held over a record refused"), &[1, 0, 0]);
    assert_eq!(met_by(OUTBOX_SHORT, &unfit, &Record::quiet(25)), [held]);
}

/// What an outbox of this length meets at a fresh hall.
fn lent(length: usize, answer: u8, record: Option<Record>) -> Vec<String> {
    let mut cases = OutboxCases::default();
    cases.add(length, answer, &Hall::fresh(&MAP), record.as_ref());
    cases.to_string().lines().filter(|line| !line.ends_with("[0, 0, 0]")).map(str::to_owned).collect()
}

#[test]
fn outboxes() {
    assert_eq!(REPORT_LENGTH, 40);
    let (taken, refused) = (|| Some(Record::quiet(1)), || Some(Record::quiet(0)));
    let short = "39 bytes, answer 5: a record would be taken, refused, none would settle";
    assert_eq!(lent(39, OUTBOX_SHORT, taken()), [format!("{short}: [1, 0, 0]")]);
    assert_eq!(lent(39, OUTBOX_SHORT, refused()), [format!("{short}: [0, 1, 0]")]);
    assert_eq!(lent(39, OUTBOX_SHORT, None), [format!("{short}: [0, 0, 1]")]);
    let fewer = "fewer, answer 5: none, 1 to 33, 34 to 38";
    for (length, counts) in
        [(0, [1, 0, 0]), (1, [0, 1, 0]), (33, [0, 1, 0]), (34, [0, 0, 1]), (38, [0, 0, 1])]
    {
        assert_eq!(lent(length, OUTBOX_SHORT, taken()), [format!("{fewer}: {counts:?}")]);
    }
    let fit = "40 bytes: a record taken, refused, nothing settled";
    let more = "more, those after the 40th kept: a record taken, refused, nothing settled";
    for (length, name) in [(40, fit), (41, more), (255, more)] {
        assert_eq!(lent(length, TAKEN, taken()), [format!("{name}: [1, 0, 0]")]);
        assert_eq!(lent(length, REPEAT, refused()), [format!("{name}: [0, 1, 0]")]);
        assert_eq!(lent(length, NOTHING_SETTLED, None), [format!("{name}: [0, 0, 1]")]);
    }
}
