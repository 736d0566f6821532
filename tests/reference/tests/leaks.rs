//! Every mapped jet that leaks fails, wherever it stands, by whatever word and whatever else leaks, and no
//! other does.

mod common;

use common::{Post, FULL_MAP, NO_JETS};
use reference::hall::Masks;
use reference::jet::{bit, leaks};
use reference::maps::{masks_of, union};
use reference::random::Random;
use reference::record::Record;
use reference::world::temperatures;
use std::collections::HashSet;

/// Eleven jets with gaps all over, all jets, none, and the last alone.
const MASKS: Masks = [
    masks_of(&[0x0000_0006, 0x0000_0010, 0x0000_0180, 0x0000_1000, 0, 0x0008_8000, 0x0010_0000, 0x4800_0000]),
    FULL_MAP[0],
    NO_JETS,
    masks_of(&[0, 0, 0, 0, 0, 0, 0x8000_0000]),
];
const ALL_JETS: Masks = [masks_of(&[0xFFFF_FFFF]); 4];

/// Each leaks: by one word or both, from 0 on, below zero, or both.
const LEAKING_WORDS: [[u16; 2]; 9] = [
    [63, 64],
    [64, 63],
    [0, 0],
    [65_535, 64],
    [64, 65_535],
    [32_768, 32_767],
    [32_767, 32_768],
    [40_000, 50_000],
    [0, 65_535],
];

fn demand_failed(leaking: u32, words: [u16; 2]) {
    let mut post = Post::over(MASKS);
    for (n, failing) in [(25, 0), (50, leaking)] {
        let mut record = Record::quiet(n);
        for string in &mut record.major.as_mut().expect("a major record").strings {
            for jet in (0..32).filter(|jet| (leaking >> jet) % 2 == 1) {
                string.temperatures[jet] = words;
            }
        }
        let wanted = MASKS.map(|masks| union(masks) & failing);
        assert_eq!(post.take(&record).fail, wanted, "{leaking:08x} at {n}, words {words:?}");
    }
}

#[test]
fn each_jet_that_leaks_alone() {
    for jet in 0..32 {
        for words in LEAKING_WORDS {
            demand_failed(1 << jet, words);
        }
    }
}

#[test]
fn jets_that_leak_together() {
    for leaking in [0xFFFF_FFFF, 0x4000_0002, 0x8000_0001, 0x0018_0000, !union(MASKS[0])] {
        for words in LEAKING_WORDS {
            demand_failed(leaking, words);
        }
    }
}

/// The ranges of document 02, order 3.
fn range_leaks(word: u16) -> bool {
    match word {
        0..=63 => true,
        64..=32_767 => false,
        32_768..=65_535 => true,
    }
}

#[test]
fn every_word_leaks_or_not_as_its_range_says() {
    let all_words: Vec<u16> = (0..=65_535).collect();
    for place in [0, 1] {
        // A word for each jet of the hall.
        for words in all_words.chunks_exact(128) {
            let record = |n| {
                let mut record = Record::quiet(n);
                for (jet, word) in words.iter().enumerate() {
                    let strings = &mut record.major.as_mut().expect("a major record").strings;
                    strings[jet / 32].temperatures[jet % 32][place] = *word;
                }
                record
            };
            let mut wanted = [0; 4];
            for (jet, _) in words.iter().enumerate().filter(|(_, word)| range_leaks(**word)) {
                wanted[jet / 32] |= 1 << (jet % 32);
            }
            let mut post = Post::over(ALL_JETS);
            post.take(&record(25));
            assert_eq!(post.take(&record(50)).fail, wanted, "place {place}, words from {}", words[0]);
        }
    }
}

#[test]
fn seeded_temperatures_leak_as_asked_and_have_the_words_at_the_ends_of_each_range() {
    let mut random = Random(5);
    let mut met = HashSet::new();
    for _ in 0..200 {
        let leaking = random.word();
        for (jet, words) in temperatures(leaking, &mut random).into_iter().enumerate() {
            assert_eq!(leaks(words), bit(leaking, jet), "{words:?}");
            met.extend(words);
        }
    }
    for word in [0, 1, 62, 63, 64, 65, 32_766, 32_767, 32_768, 32_769, 65_534, 65_535] {
        assert!(met.contains(&word), "{word}");
    }
}
