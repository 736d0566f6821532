//! A jet named both ways: its nights, which jets count, and that the refusal is the last of the tests and
//! changes nothing.

mod common;

use common::{driver_on, with_major, Post, FULL_MAP, MAP, NO_JETS, WIDE_MAP};
use reference::hall::{
    Hall, Masks, BOTH_WAYS, COUNT_ENDED, NOTHING_SETTLED, OUTBOX_SHORT, REPEAT, STALE, TAKEN, WRONG_KIND,
};
use reference::jet::{bit, MANIFOLDS};
use reference::maps::{masks, masks_of, union};
use reference::monitor::STORE_LENGTH;
use reference::random::Random;
use reference::record::{sum, Record};
use reference::report::{Report, REPORT_LENGTH};
use reference::state::{hall_bytes, hall_from, HALL_LENGTH};
use reference::world::{name_both_ways, Chances, World};
use reference::Monitor;

/// Each manifold has its jets, in each string others.
const MIXED_MAP: Masks = [
    masks_of(&[0x0000_0001, 0x0000_0010, 0x0000_0100, 0x0000_1000, 0, 0x0200_0000, 0, 0x8000_0000]),
    FULL_MAP[0],
    masks_of(&[0, 0, 0, 0, 0, 0, 0, 0x0003_0000]),
    NO_JETS,
];

/// The record with inhibit and re-enable for these jets of string `s`.
fn both_ways(mut record: Record, s: usize, jets: u32) -> Record {
    let string = &mut record.major.as_mut().expect("a major record").strings[s];
    string.inhibit |= jets;
    string.re_enable |= jets;
    record
}

fn with_path(mut record: Record, path: u8) -> Record {
    record.path = path;
    record
}

#[test]
fn both_ways_at_75_gets_7_and_a_clean_record_for_75_behind_it_is_taken() {
    let mut post = Post::over(MAP);
    post.quiet_until(49);
    let mut earlier = with_major(50, 0, |major| major.inhibit = 4);
    earlier.major.as_mut().unwrap().quantities = [[500, 517], [300, 200], [0, 0]];
    post.take(&earlier);
    post.quiet_until(73);
    let shown = post.take(&Record::quiet(74));
    let before = post.monitor.clone();

    let refused = post.send(&both_ways(driver_on(75, 0, 2), 0, 1));
    assert_eq!(refused.answer, BOTH_WAYS);
    assert_eq!((refused.bytes()[2], &refused.bytes()[3..]), (7, &shown.bytes()[3..]));
    assert_eq!(post.monitor, before);

    let taken = post.take(&Record::quiet(75));
    assert_eq!((taken.n, taken.fail[0], taken.balance), (75, 4, 0));
}

/// Sends the first two of three bad major cycles, and one for 75 that is refused.
fn bad_at_25_and_50_and_refused_at_75() -> Post {
    let mut post = Post::over(MAP);
    for (n, fail) in [(25, 0), (50, 2)] {
        post.quiet_until(n - 1);
        let report = post.take(&driver_on(n, 0, 2));
        assert_eq!((report.fail[0], report.close[0]), (fail, 0), "cycle {n}");
    }
    post.quiet_until(74);
    let report = post.send(&both_ways(driver_on(75, 0, 2), 0, 8));
    assert_eq!((report.answer, report.n, report.fail[0], report.close[0]), (7, 74, 2, 0));
    post
}

#[test]
fn bad_at_25_50_75_with_75_refused_closes_at_150() {
    let mut post = bad_at_25_and_50_and_refused_at_75();
    post.take(&Record::quiet(76));
    for (n, close) in [(100, 0), (125, 0), (150, 1)] {
        post.quiet_until(n - 1);
        assert_eq!(post.take(&driver_on(n, 0, 2)).close[0], close, "cycle {n}");
    }
}

#[test]
fn bad_at_25_50_75_with_another_75_taken_closes_at_75() {
    let mut post = bad_at_25_and_50_and_refused_at_75();
    assert_eq!(post.take(&driver_on(75, 0, 2)).close[0], 1);
}

#[test]
fn each_mapped_jet_alone_gets_7_and_no_other_jet_does() {
    for (s, masks) in MIXED_MAP.into_iter().enumerate() {
        for jet in 0..32 {
            let answer = if bit(union(masks), jet) { BOTH_WAYS } else { TAKEN };
            for path in [0, 1 << s, 0x0F, 0x0F & !(1 << s)] {
                let record = with_path(both_ways(Record::quiet(25), s, 1 << jet), path);
                assert_eq!(Post::over(MIXED_MAP).send(&record).answer, answer, "string {s}, jet {jet}");
            }
        }
    }
}

#[test]
fn jets_in_no_mask_named_both_ways_change_nothing() {
    let mut post = Post::over(MIXED_MAP);
    let mut quiet = Post::over(MIXED_MAP);
    let mut record = Record::quiet(25);
    for (s, masks) in MIXED_MAP.into_iter().enumerate() {
        record = both_ways(record, s, !union(masks));
    }
    assert_eq!(post.take(&record), quiet.take(&Record::quiet(25)));
    assert_eq!(post.monitor, quiet.monitor);
    // One mapped jet among them.
    post.quiet_until(49);
    record.wire = 50;
    assert_eq!(post.send(&both_ways(record, 2, 0x0001_0000)).answer, BOTH_WAYS);
}

#[test]
fn over_a_refused_map_no_jet_is_mapped() {
    let (_, monitor) = Monitor::start([masks_of(&[3, 1]); 4]);
    Post { monitor }.take(&both_ways(Record::quiet(25), 0, 3));
}

#[test]
fn inhibit_for_one_jet_and_re_enable_for_another_are_carried_out() {
    let mut post = Post::over(WIDE_MAP);
    let same_string = with_major(25, 1, |major| (major.inhibit, major.re_enable) = (0x11, 0x22));
    assert_eq!(post.take(&same_string).fail, [0, 0x11, 0, 0]);
    // The same jets, each one way in its string.
    let mut two_strings = with_major(50, 1, |major| (major.inhibit, major.re_enable) = (0x22, 0x11));
    two_strings.major.as_mut().unwrap().strings[2].inhibit = 0x11;
    assert_eq!(post.take(&two_strings).fail, [0, 0x22, 0x11, 0]);
    assert_eq!(post.monitor.hall.strings[1].word(|jet| jet.re_enabled), 0x11);
}

#[test]
fn requests_of_two_records_do_not_meet() {
    let mut post = Post::over(MAP);
    assert_eq!(post.take(&with_major(25, 0, |major| major.inhibit = 1)).fail[0], 1);
    assert_eq!(post.take(&with_major(50, 0, |major| major.re_enable = 1)).fail[0], 0);
    assert_eq!(post.send(&both_ways(Record::quiet(75), 0, 1)).answer, BOTH_WAYS);
    assert_eq!(post.take(&with_major(75, 0, |major| major.inhibit = 1)).fail[0], 1);
}

#[test]
fn every_other_refusal_comes_first() {
    let mut post = Post::over(MAP);
    post.quiet_until(50);
    let named = both_ways(Record::quiet(0), 0, 0x0F);
    let mut demand = |n: u64, answer| {
        let record = Record { wire: n as u16, ..named.clone() };
        let report = post.send(&record);
        assert_eq!((report.answer, report.n), (answer, 50), "cycle {n}");
    };
    demand(50 + 32_768, STALE);
    demand(25, STALE);
    demand(50, REPEAT);
    demand(51, WRONG_KIND);
    demand(74, WRONG_KIND);
    demand(75, BOTH_WAYS);
    demand(50 + 32_750, BOTH_WAYS);

    // 4,294,967,300 is a multiple of 25.
    for (n, answer) in [(4_294_967_294, COUNT_ENDED), (4_294_967_200, BOTH_WAYS)] {
        let mut post = Post::over(MAP);
        post.monitor.hand_in(n, 0, [0; STORE_LENGTH]);
        let record = Record { wire: (u64::from(n) + 25 - u64::from(n) % 25) as u16, ..named.clone() };
        assert_eq!(post.send(&record).answer, answer, "after {n}");
    }
}

#[test]
fn a_short_outbox_comes_before_it() {
    let mut post = Post::over(MAP);
    let record = both_ways(Record::quiet(25), 0, 1).bytes();
    let before = post.monitor.clone();
    let mut short = [0xEE; REPORT_LENGTH - 1];
    assert_eq!(post.monitor.call(&record, &mut short), (OUTBOX_SHORT, 0));
    assert_eq!((post.monitor.clone(), short), (before, [0xEE; REPORT_LENGTH - 1]));
    let mut enough = [0xEE; REPORT_LENGTH + 2];
    assert_eq!(post.monitor.call(&record, &mut enough), (BOTH_WAYS, 619));
    assert_eq!(enough[REPORT_LENGTH..], [0xEE; 2]);
}

#[test]
fn the_record_is_gone_and_what_it_hides_is_not_seen() {
    let mut hiding = both_ways(Record::quiet(25), 0, 1).bytes();
    hiding[57..57 + 59].copy_from_slice(&Record::quiet(1).bytes());
    hiding.truncate(617);
    hiding.extend(sum(&hiding).to_be_bytes());
    let (_, mut monitor) = Monitor::start(MAP);
    let mut outbox = [0; REPORT_LENGTH];
    assert_eq!(monitor.call(&hiding[..600], &mut outbox), (NOTHING_SETTLED, 600));
    let rest = [&hiding[600..], &Record::quiet(2).bytes()].concat();
    assert_eq!(monitor.call(&rest, &mut outbox), (BOTH_WAYS, 19));
    assert_eq!((monitor.held, monitor.store), (0, [0; STORE_LENGTH]));
    assert_eq!(monitor.call(&rest[19..], &mut outbox), (TAKEN, 59));
    assert_eq!(Report::read(&outbox).n, 2);
}

#[test]
fn no_bit_of_any_hall_changes() {
    let mut random = Random(19);
    for number in 0..400 {
        let mut bytes: [u8; HALL_LENGTH] = random.bytes(HALL_LENGTH).try_into().expect("a hall's bytes");
        let n = random.word() / 25 * 25 + 24;
        bytes[..4].copy_from_slice(&n.to_be_bytes());
        let mut hall = hall_from(&bytes);
        let before = hall.clone();
        let mut record = Record::of_values(true, &random.bytes(615));
        record.wire = (n + 1) as u16;
        // The random words of a string may leave a jet out.
        let s = number % 4;
        let mapped = hall.strings[s].jets.iter().find(|jet| jet.is_mapped()).expect("a mapped jet").number;
        assert_eq!(hall.settle(&both_ways(record, s, 1 << mapped)), BOTH_WAYS);
        assert_eq!(hall_bytes(&hall), hall_bytes(&before));
        assert_eq!(hall, before);
    }
}

#[test]
fn a_jet_of_any_manifold_or_of_several_counts() {
    let alone = (0..MANIFOLDS).map(|manifold| {
        let mut masks = NO_JETS;
        masks[manifold] = 8;
        masks
    });
    for masks in alone.chain([masks_of(&[8, 8, 0, 12]), masks_of(&[0, 0, 0, 0, 8, 0, 0, 8]), [8; MANIFOLDS]])
    {
        let mut hall = Hall::fresh(&[NO_JETS, NO_JETS, masks, NO_JETS]);
        hall.n = 24;
        assert_eq!(hall.settle(&both_ways(Record::quiet(25), 2, 2)), TAKEN, "{masks:?}");
        hall.n = 24;
        assert_eq!(hall.settle(&both_ways(Record::quiet(25), 2, 8)), BOTH_WAYS, "{masks:?}");
    }
}

#[test]
fn seeded_records_name_mapped_jets_both_ways_when_asked_to_and_no_more() {
    let mut random = Random(3);
    let mut named_in_vain = 0;
    for _ in 0..500 {
        let masks = masks(&mut random);
        let mapped = masks.map(union);
        let chances = Chances::drawn(&mut random);
        let mut record = World::over(&masks).record(25, &chances, &mut random);
        let strings = record.major.as_ref().unwrap().strings;
        named_in_vain += strings.iter().filter(|string| string.inhibit & string.re_enable != 0).count();
        assert_eq!(Hall::fresh(&masks).settle(&record), TAKEN);
        name_both_ways(&mut record, mapped, &mut random);
        let answer = if mapped == [0; 4] { TAKEN } else { BOTH_WAYS };
        assert_eq!(Hall::fresh(&masks).settle(&record), answer);
    }
    assert!(named_in_vain > 50, "{named_in_vain}");
}
