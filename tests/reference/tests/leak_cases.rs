//! The cases of leaks are counted where the output shows them, and nowhere else.

mod common;

use common::{with_major, Post, MAP};
use reference::feed::masks_bytes;
use reference::leak_cases::LeakCases;
use reference::record::Record;

/// The words of jets 0 to 3. Only jet 2 is good, with an oxidizer word of 64.
const WORDS: [[u16; 2]; 4] = [[65_535, 64], [63, 63], [500, 64], [100, 32_768]];

fn record(n: u64) -> Record {
    with_major(n, 0, |major| major.temperatures[..4].copy_from_slice(&WORDS))
}

fn demand_met(cases: &LeakCases, wanted: &[(&str, [u64; 3])]) {
    let said = cases.to_string();
    for (name, met) in wanted {
        assert!(said.contains(&format!("\n{name}: {met:?}\n")), "{name}: {met:?} is not in\n{said}");
    }
}

#[test]
fn a_feed_counts_by_what_its_reports_show() {
    let mut cases = LeakCases::default();
    let mut feed = masks_bytes(&MAP).to_vec();
    feed.extend(record(25).bytes());
    cases.add_feed(&feed);
    demand_met(&cases, &[("a jet leaks by a word of exactly 63", [0; 3])]);
    demand_met(&cases, &[("a jet is good with a word of exactly 64", [0; 3])]);

    feed.extend(record(50).bytes());
    feed.extend(record(75).bytes());
    cases.add_feed(&feed);
    demand_met(
        &cases,
        &[
            ("a jet leaks by a word of 0 to 63", [0, 0, 1]),
            ("a jet leaks by a word of 32,768 to 65,535", [1, 1, 0]),
            ("a jet leaks by a word of exactly 0", [0, 0, 0]),
            ("a jet leaks by a word of exactly 63", [0, 0, 1]),
            ("a jet leaks by a word of exactly 32,768", [0, 1, 0]),
            ("a jet leaks by a word of exactly 65,535", [1, 0, 0]),
            ("a jet is good with a word of exactly 64", [0, 1, 0]),
            ("a jet is good with a word of exactly 32,767", [0, 0, 0]),
        ],
    );
}

#[test]
fn a_call_shows_every_idle_mapped_jet_at_once() {
    let mut cases = LeakCases::default();
    let mut post = Post::over(MAP);
    let mut record = record(25);
    record.strings[0].commanded = 0x2;
    post.take(&record);
    cases.add_call(&record, &post.monitor.hall);
    demand_met(
        &cases,
        &[
            ("a jet leaks by a word of 0 to 63", [0, 0, 0]),
            ("a jet leaks by a word of 32,768 to 65,535", [1, 1, 0]),
            ("a jet is good with a word of exactly 64", [0, 1, 0]),
        ],
    );
}
