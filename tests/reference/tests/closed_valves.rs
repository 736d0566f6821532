//! Re-enables of jets behind closed valves (document 02, order 8): the nights of it, which are ignored and which are
//! done, and that nothing else of a string changes.

mod common;

use common::{driver_on, no_pressure, with, with_major, Post, ALL, FULL_MAP, MAP};
use reference::hall::{Hall, BOTH_WAYS, TAKEN};
use reference::jet::{bit, MANIFOLDS};
use reference::random::Random;
use reference::record::{Record, StringMajor};
use reference::state::{hall_from, HALL_LENGTH};

/// The valve of manifold 0 is closed, all others are open.
const CLOSED: u8 = ALL - 1;

/// The record with these valves of string 0.
fn behind(valves: u8, mut record: Record) -> Record {
    record.strings[0].valves = valves;
    record
}

fn closed(n: u64) -> Record {
    behind(CLOSED, Record::quiet(n))
}

/// A major record that asks for these jets of string 0.
fn asking(n: u64, inhibit: u32, re_enable: u32) -> Record {
    with_major(n, 0, |major| (major.inhibit, major.re_enable) = (inhibit, re_enable))
}

fn re_enable(n: u64, jets: u32) -> Record {
    asking(n, 0, jets)
}

fn with_path(mut record: Record, path: u8) -> Record {
    record.path = path;
    record
}

/// What a major record says of each string.
fn strings(record: &mut Record) -> &mut [StringMajor; 4] {
    &mut record.major.as_mut().expect("a major record").strings
}

/// Jet 1 failed off at 3, and the valve of manifold 0 closed at 30: jets 0, 2 and 3 are the saved set.
fn closed_at_30() -> Post {
    let mut post = Post::over(FULL_MAP);
    for (n, fail) in [(1, 0), (2, 0), (3, 2)] {
        assert_eq!(post.take(&no_pressure(n, 0, 2)).fail[0], fail);
    }
    post.quiet_until(29);
    assert_eq!(post.take(&closed(30)).fail, [0x0F, 0, 0, 0]);
    post
}

/// The fail word of string 0 after each record.
fn fails(post: &mut Post, records: &[Record]) -> Vec<u32> {
    records.iter().map(|record| post.take(record).fail[0]).collect()
}

#[test]
fn a_re_enable_at_the_next_major_is_ignored_and_the_opening_brings_back_what_was_good() {
    let mut post = closed_at_30();
    let quiet = {
        let mut post = post.clone();
        post.take(&closed(50));
        post.monitor
    };
    assert_eq!(fails(&mut post, &[behind(CLOSED, re_enable(50, 0x0F))]), [0x0F]);
    assert_eq!(post.monitor, quiet);
    assert_eq!(fails(&mut post, &[closed(51), closed(52), Record::quiet(53)]), [0x0F, 0x0F, 0x02]);
}

#[test]
fn it_is_not_kept_for_later_and_has_to_be_asked_for_again() {
    let mut post = closed_at_30();
    let records =
        [behind(CLOSED, re_enable(50, 0x0F)), Record::quiet(60), Record::quiet(75), re_enable(100, 0x02)];
    assert_eq!(fails(&mut post, &records), [0x0F, 0x02, 0x02, 0]);
    // Jet 0 was never re-enabled: it can fail. Jet 1 cannot.
    let records = [101, 102, 103].map(|n| no_pressure(n, 0, 0x03));
    assert_eq!(fails(&mut post, &records), [0, 0, 0x01]);
}

#[test]
fn re_enable_and_opening_in_one_record_are_done() {
    for jets in [0x01, 0x02, 0x0F] {
        let mut post = closed_at_30();
        assert_eq!(post.take(&re_enable(50, jets)).fail[0], 0x02 & !jets);
        assert_eq!(post.monitor.hall.strings[0].word(|jet| jet.re_enabled), jets);
    }
}

#[test]
fn closing_and_re_enable_in_one_record_leave_all_jets_failed() {
    let mut post = Post::over(FULL_MAP);
    for (n, fail) in [(1, 0), (2, 0), (3, 2)] {
        assert_eq!(post.take(&no_pressure(n, 0, 2)).fail[0], fail);
    }
    // One that is in force lapses, and does not come back.
    post.take(&re_enable(25, 0x04));
    let records = [behind(CLOSED, re_enable(50, 0x0F)), closed(51), Record::quiet(52)];
    assert_eq!(fails(&mut post, &records), [0x0F, 0x0F, 0x02]);
    assert_eq!(post.monitor.hall.strings[0].word(|jet| jet.re_enabled), 0);
}

#[test]
fn an_inhibit_in_force_stays_in_force() {
    // Jet 2 is inhibited before the valve closes, jet 3 behind it.
    let mut post = Post::over(MAP);
    post.take(&asking(25, 0x04, 0));
    let records = [
        closed(30),
        behind(CLOSED, asking(50, 0x08, 0)),
        behind(CLOSED, re_enable(75, 0x0F)),
        Record::quiet(80),
        re_enable(100, 0x04),
        re_enable(125, 0x08),
    ];
    assert_eq!(fails(&mut post, &records), [0x0F, 0x0F, 0x0F, 0x0C, 0x08, 0]);
}

#[test]
fn an_inhibit_behind_a_closed_valve_is_done() {
    let mut post = closed_at_30();
    let records = [behind(CLOSED, asking(50, 0x05, 0x08)), Record::quiet(51), Record::quiet(75)];
    assert_eq!(fails(&mut post, &records), [0x0F, 0x07, 0x07]);
    // By closing in the same record, too.
    let mut post = Post::over(MAP);
    let records = [behind(CLOSED, asking(25, 0x05, 0x08)), Record::quiet(26)];
    assert_eq!(fails(&mut post, &records), [0x0F, 0x05]);
}

#[test]
fn a_jet_named_both_ways_behind_a_closed_valve_gets_7() {
    for valves in [CLOSED, ALL] {
        let mut post = closed_at_30();
        let before = post.monitor.clone();
        let report = post.send(&behind(valves, asking(50, 0x01, 0x01)));
        assert_eq!((report.answer, report.fail[0]), (BOTH_WAYS, 0x0F));
        assert_eq!(post.monitor, before);
    }
    let mut post = Post::over(MAP);
    assert_eq!(post.send(&behind(CLOSED, asking(25, 0x01, 0x01))).answer, BOTH_WAYS);
}

/// All jets are inhibited, and then a record asks to re-enable all.
#[test]
fn by_each_valve_byte_of_each_string_the_jets_behind_open_valves_are_re_enabled_and_no_others() {
    let mut inhibited = Post::over(FULL_MAP);
    let mut record = Record::quiet(25);
    strings(&mut record).iter_mut().for_each(|string| string.inhibit = u32::MAX);
    inhibited.take(&record);
    for s in 0..4 {
        for valves in 0..=ALL {
            for closed_before in [true, false] {
                let mut post = inhibited.clone();
                if closed_before {
                    post.take(&with(49, s, |words| words.valves = valves));
                }
                let mut record = with(50, s, |words| words.valves = valves);
                strings(&mut record).iter_mut().for_each(|string| string.re_enable = u32::MAX);
                let mut wanted = [0; 4];
                for manifold in (0..MANIFOLDS).filter(|manifold| !bit(valves.into(), *manifold)) {
                    wanted[s] |= FULL_MAP[s][manifold];
                }
                assert_eq!(post.take(&record).fail, wanted, "string {s}, valves {valves:x}");
                for (string, wanted) in post.monitor.hall.strings.iter().zip(wanted) {
                    assert_eq!(string.word(|jet| jet.inhibited), wanted);
                    assert_eq!(string.word(|jet| jet.re_enabled), !wanted);
                }
            }
        }
    }
}

#[test]
fn behind_a_closed_valve_the_close_command_comes_all_the_same() {
    for (valves, close, fail) in [(CLOSED, 1, 0x0F), (ALL, 0, 0)] {
        let mut post = Post::over(MAP);
        for (n, fail) in [(25, 0), (50, 2)] {
            assert_eq!(post.take(&driver_on(n, 0, 2)).fail[0], fail);
        }
        post.take(&behind(valves, driver_on(60, 0, 2)));
        let mut record = behind(valves, re_enable(75, 2));
        record.strings[0].driver = 2;
        let report = post.take(&record);
        assert_eq!((report.close[0], report.fail[0]), (close, fail), "valves {valves:x}");
    }
    // Ignored at the second bad major, it does not keep the command of the third away.
    let mut post = Post::over(MAP);
    post.take(&driver_on(25, 0, 2));
    for (n, jets, close) in [(50, 2, 0), (75, 0, 1)] {
        let mut record = behind(CLOSED, re_enable(n, jets));
        record.strings[0].driver = 2;
        assert_eq!(post.take(&record).close[0], close, "cycle {n}");
    }
}

#[test]
fn where_the_path_is_back_the_record_decides_and_not_the_good_copy() {
    // The good copy of 50 has the valve closed.
    let mut post = closed_at_30();
    assert_eq!(fails(&mut post, &[closed(50), with_path(closed(74), 1)]), [0x0F; 2]);
    for (valves, fail) in [(CLOSED, 0x0F), (ALL, 0)] {
        assert_eq!(post.clone().take(&behind(valves, re_enable(75, 0x0F))).fail[0], fail);
    }
    // That of 25 has it open: the valve closes once more.
    let mut post = closed_at_30();
    assert_eq!(fails(&mut post, &[with_path(closed(49), 1)]), [0x0F]);
    let records = [behind(CLOSED, re_enable(50, 0x0F)), Record::quiet(51)];
    assert_eq!(fails(&mut post, &records), [0x0F, 0x02]);
    // Under the fault every request is lost.
    let mut post = closed_at_30();
    let lost = [with_path(re_enable(50, 0x0F), 1), closed(51), Record::quiet(52)];
    assert_eq!(fails(&mut post, &lost), [0x0F, 0x0F, 0x02]);
}

#[test]
fn over_a_gap_the_record_decides_too() {
    for (n, valves, fail) in [(50, CLOSED, 0x0F), (100, CLOSED, 0x0F), (100, ALL, 0)] {
        assert_eq!(closed_at_30().take(&behind(valves, re_enable(n, 0x0F))).fail[0], fail);
    }
}

/// No run leaves a re-enable in force behind a closed valve. One that is handed in stays, as does what it does.
#[test]
fn a_hall_handed_in_is_stepped_as_it_stands() {
    let mut post = Post::over(FULL_MAP);
    let string = &mut post.monitor.hall.strings[0];
    string.valves = CLOSED.into();
    string.jets[1].re_enabled = true;
    (string.jets[2].failed, string.jets[3].inhibited) = (true, true);
    let records = [behind(CLOSED, re_enable(25, 0x0F)), closed(26)];
    assert_eq!(fails(&mut post, &records), [0x0C, 0x0C]);
    let string = &post.monitor.hall.strings[0];
    assert_eq!((string.word(|jet| jet.re_enabled), string.word(|jet| jet.inhibited)), (0x02, 0x08));
}

#[test]
fn one_closed_valve_of_two_that_a_jet_handed_in_has_is_enough() {
    for valves in 0..=ALL {
        let mut post = Post::over(MAP);
        let string = &mut post.monitor.hall.strings[0];
        string.valves = valves.into();
        (string.jets[0].manifolds[6], string.jets[0].failed) = (true, true);
        let is_done = valves & 0x41 == 0x41;
        assert_eq!(
            post.take(&behind(valves, re_enable(25, 0x01))).fail[0],
            u32::from(!is_done),
            "{valves:x}"
        );
    }
}

/// Any hall and any record: it is as if the jets behind closed valves had not been named.
#[test]
fn nothing_of_any_hall_depends_on_a_re_enable_behind_a_closed_valve() {
    let mut random = Random(31);
    let mut ignored = 0;
    for _ in 0..1_000 {
        let bytes: [u8; HALL_LENGTH] = random.bytes(HALL_LENGTH).try_into().expect("a hall's bytes");
        let mut before = hall_from(&bytes);
        before.n = before.n / 25 * 25 + 24;
        // Jets on one manifold or so: of those on eight any, hardly one would be behind open valves alone.
        for jet in before.strings.iter_mut().flat_map(|string| &mut string.jets) {
            jet.manifolds = [(); MANIFOLDS].map(|_| random.one_in(8));
        }
        let mut asking = Record::of_values(true, &random.bytes(615));
        asking.wire = (before.n + 1) as u16;
        strings(&mut asking).iter_mut().for_each(|string| string.re_enable = !string.inhibit);
        let mut heard = asking.clone();
        for (s, string) in before.strings.iter().enumerate() {
            let closed = string.word(|jet| jet.is_behind_closed(asking.strings[s].valves.into()));
            ignored += (strings(&mut heard)[s].re_enable & closed).count_ones();
            strings(&mut heard)[s].re_enable &= !closed;
        }
        let after = |mut hall: Hall, record: &Record| {
            assert_eq!(hall.settle(record), TAKEN);
            hall
        };
        assert_eq!(after(before.clone(), &asking), after(before, &heard));
    }
    assert!(ignored > 10_000, "{ignored}");
}
