//! Over all runs from fresh: after every taken record each jet on a manifold remembered as closed is in the fail word.

mod common;

use common::Post;
use reference::feed::records;
use reference::generate::input;
use reference::hall::{Hall, BOTH_WAYS, STALE, TAKEN, WRONG_KIND};
use reference::jet::{bit, Jet};
use reference::record::Record;
use reference::report::Report;

/// Each jet behind a valve remembered as closed is failed, and has no re-enable in force; the same of the good copy.
fn holds(hall: &Hall) -> bool {
    hall.strings.iter().all(|string| {
        let behind = |jet: &&Jet| jet.is_behind_closed(string.valves);
        let behind_good = |jet: &&Jet| jet.is_behind_closed(string.good_valves);
        let jets = || string.jets.iter();
        jets().filter(behind).all(|jet| jet.failed && !jet.re_enabled)
            && jets().filter(behind_good).all(|jet| jet.good_failed && !jet.re_enabled)
    })
}

/// The jets of each string that the report has to show by the newest record taken: of strings whose path bit is clear,
/// those on manifolds whose valve bit is clear.
fn by_eye(hall: &Hall, taken: &Record) -> [u32; 4] {
    [0, 1, 2, 3].map(|s| {
        let behind = |jet: &Jet| jet.is_behind_closed(taken.strings[s].valves.into());
        match bit(taken.path.into(), s) {
            true => 0,
            false => hall.strings[s].word(behind),
        }
    })
}

fn shows(report: &Report, jets: [u32; 4]) -> bool {
    (0..4).all(|s| report.fail[s] & jets[s] == jets[s])
}

#[test]
fn random_nights() {
    let (mut taken, mut by_refused, mut jets_seen) = (0, 0, 0);
    for seed in 0..60 {
        let (bytes, _) = input(0xC105_0000 + seed, 40_000);
        let (masks, records) = records(&bytes);
        let mut post = Post::over(masks);
        let mut wanted = [0; 4];
        for (number, record) in records.iter().enumerate() {
            let report = post.send(record);
            let name = format!("seed {seed}, record {number}");
            match report.answer {
                TAKEN => {
                    wanted = by_eye(&post.monitor.hall, record);
                    taken += 1;
                    jets_seen += wanted.iter().map(|jets| jets.count_ones()).sum::<u32>();
                }
                STALE..=WRONG_KIND | BOTH_WAYS => by_refused += u32::from(wanted != [0; 4]),
                _ => unreachable!("no outbox is short"),
            }
            assert!(shows(&report, wanted), "{name}: {report:?}, not {wanted:x?}");
            assert!(holds(&post.monitor.hall), "{name}");
        }
    }
    assert!(taken > 10_000 && jets_seen > 100_000 && by_refused > 200, "{taken}, {jets_seen}, {by_refused}");
}
