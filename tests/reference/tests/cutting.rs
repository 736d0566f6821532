//! A feed cut anywhere gives the same reports and the same end.

use reference::feed::{masks_from, settle_piece};
use reference::generate::input;
use reference::random::Random;
use reference::Monitor;

/// The monitor and the reports after pieces of the given lengths, over and over.
fn after(input: &[u8], mut length: impl FnMut() -> usize) -> (Monitor, Vec<u8>) {
    let (masks, mut feed) = input.split_first_chunk().unwrap();
    let (answer, mut monitor) = Monitor::start(masks_from(masks));
    assert_eq!(answer, 0);
    let mut reports = Vec::new();
    while !feed.is_empty() {
        let (piece, rest) = feed.split_at(length().min(feed.len()));
        settle_piece(&mut monitor, piece, &mut reports);
        feed = rest;
    }
    assert!(!reports.is_empty());
    (monitor, reports)
}

#[test]
fn feeds_cut_at_random_points_end_the_same() {
    for seed in 0..60 {
        let (input, _) = input(seed, 8_000);
        let mut random = Random(seed);
        let longest = random.pick(&[2, 70, 1_500]);
        let cut = after(&input, || random.index(longest + 1));
        assert_eq!(cut, after(&input, || input.len()), "seed {seed}");
    }
}

#[test]
fn feeds_that_come_byte_by_byte_end_the_same() {
    for seed in 100..110 {
        let (input, _) = input(seed, 4_000);
        assert_eq!(after(&input, || 1), after(&input, || input.len()), "seed {seed}");
    }
}
