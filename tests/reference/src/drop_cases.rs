//! The cases that the dropping of close bits has to meet, and how often it did.

use crate::cases::{each, only, Cases, Manifolds, Named, EACH_MANIFOLD};
use crate::feed::play;
use crate::hall::{Hall, BOTH_WAYS, COUNT_ENDED, OUTBOX_SHORT, REPEAT, STALE, TAKEN, WRONG_KIND};
use crate::jet::{ALL_MANIFOLDS, MANIFOLDS};
use crate::record::Record;
use std::fmt;

/// A drop is carried out where the record is taken and the string's path bit is clear.
const CASES: [Named<Asked>; 12] = [
    ("a drop carried out, and the bit is gone: each manifold of each string", EACH_MANIFOLD, |asked| {
        each(asked.gone())
    }),
    (
        "a drop carried out, and step 6 sets the bit again: each manifold of each string",
        EACH_MANIFOLD,
        |asked| each(asked.set_again()),
    ),
    (
        "a drop lost under a path fault, and the bit stays: each manifold of each string",
        EACH_MANIFOLD,
        |asked| each(asked.lost()),
    ),
    (
        "a bit gone: under a path fault of other strings, in the record by which its path is back",
        2,
        gone_by_path,
    ),
    ("a bit gone, and one not named stays: of its string, of its manifold in another string", 2, gone_beside),
    ("bits gone: several of a string, of several strings", 2, several_gone),
    ("a drop carried out where no bit is set: it stays clear, step 6 sets it", 2, without_a_bit),
    ("a bit set by three bad majors, the drop at the third, at the second of them", 2, reaching_back),
    ("a bit gone, and gained by a later record", 1, |asked| only(asked.comes_later, 0)),
    (
        "7, and a drop of a set bit: in all, the next record takes the cycle and the bit is gone",
        2,
        refused_with_7,
    ),
    ("a drop of a set bit, answered 1, 2, 4", 3, |asked| asked.answered(&[STALE, REPEAT, WRONG_KIND])),
    ("a bit gone where d is 1, 2 to 25, more", 3, gone_by_distance),
];
/// No feed comes to the end of the count, and the program's outbox is not short. No run sets the bit of a manifold
/// without jets, nor the bits of a close word above the manifolds.
const OF_HALLS: [Named<Asked>; 2] = [
    ("a drop of a set bit, answered 3, 5", 2, |asked| asked.answered(&[COUNT_ENDED, OUTBOX_SHORT])),
    ("a bit gone of a manifold without jets, of a close word with bits above", 2, gone_in_halls),
];
#[derive(Clone, Debug)]
pub struct DropCases {
    asked: Cases<Asked>,
    history: History,
}

/// What the records before have left.
#[derive(Clone, Debug, Default)]
struct History {
    /// Manifolds whose bit a drop has taken away.
    gone: Manifolds,
    /// The last major cycle taken, and the drops carried out in it.
    last_major: Option<(u32, Manifolds)>,
    /// The last record was answered 7: its cycle, and the set bits that it would have dropped.
    refused: Option<(u64, Manifolds)>,
}

/// A record, and what became of it and of the drops in it.
#[derive(Clone, Debug)]
struct Asked {
    answer: u8,
    d: u16,
    path: u8,
    drops: Manifolds,
    before: [u32; 4],
    after: [u32; 4],
    with_jets: Manifolds,
    /// Strings that come back from a path fault.
    recovers: [bool; 4],
    at_second_of_three: bool,
    comes_later: bool,
    done_after_7: bool,
}

impl DropCases {
    pub fn of_feeds() -> DropCases {
        DropCases::with(Cases::of(CASES))
    }

    pub fn of_halls() -> DropCases {
        DropCases::with(Cases::of(CASES.into_iter().chain(OF_HALLS)))
    }

    fn with(asked: Cases<Asked>) -> DropCases {
        DropCases { asked, history: History::default() }
    }

    /// What the program reads for a night.
    pub fn add_feed(&mut self, input: &[u8]) {
        self.begin();
        play(input, |answer, before, record, after| self.add(answer, before, record, after));
    }

    /// The next record is for another hall.
    pub fn begin(&mut self) {
        self.history = History::default();
    }

    /// A record, its answer, and the hall before it and after it.
    pub fn add(&mut self, answer: u8, before: &Hall, record: &Record, after: &Hall) {
        let mut asked = Asked::of(answer, before, record, after);
        self.history.tell(&mut asked, before.n, record.major.is_some());
        self.asked.add(&asked);
    }

    /// Demands that every variant of every case was met that often.
    pub fn each_met(&self, least: u64) -> Result<(), String> {
        self.asked.each_met(least)
    }
}

impl fmt::Display for DropCases {
    fn fmt(&self, lines: &mut fmt::Formatter) -> fmt::Result {
        self.asked.fmt(lines)
    }
}

impl History {
    /// Says what the record is to those before it, and takes it in.
    fn tell(&mut self, asked: &mut Asked, n: u32, is_major: bool) {
        let gained = asked.gained();
        let cycle = u64::from(n) + u64::from(asked.d);
        asked.comes_later = meet(gained, self.gone);
        if asked.answer == TAKEN && is_major {
            // The bit takes a jet that was bad at that major, and at the one before.
            let (last, done) = self.last_major.unwrap_or_default();
            asked.at_second_of_three = u64::from(last) + 25 == cycle && meet(gained, done);
            self.last_major = Some((cycle as u32, asked.done()));
        }
        if let Some((refused, drops)) = self.refused {
            asked.done_after_7 = refused == cycle && meet(asked.gone(), drops);
        }
        if asked.answer != OUTBOX_SHORT {
            self.refused = (asked.answer == BOTH_WAYS).then(|| (cycle, asked.in_vain()));
        }
        let gone = asked.gone();
        self.gone = [0, 1, 2, 3].map(|s| self.gone[s] & !gained[s] | gone[s]);
    }
}

impl Asked {
    fn of(answer: u8, before: &Hall, record: &Record, after: &Hall) -> Asked {
        let close = |hall: &Hall| [0, 1, 2, 3].map(|s| hall.strings[s].close);
        let with_jets = |s: usize| {
            let has_jets =
                |manifold: &usize| before.strings[s].jets.iter().any(|jet| jet.manifolds[*manifold]);
            (0..MANIFOLDS).filter(has_jets).map(|manifold| 1 << manifold).sum()
        };
        let drops = record.major.as_ref().map(|major| major.strings.map(|string| string.drops));
        Asked {
            answer,
            d: record.wire.wrapping_sub(before.n as u16),
            path: record.path,
            drops: drops.unwrap_or_default(),
            before: close(before),
            after: close(after),
            with_jets: [0, 1, 2, 3].map(with_jets),
            recovers: [0, 1, 2, 3].map(|s| before.strings[s].path_fault && (record.path >> s) % 2 == 0),
            at_second_of_three: false,
            comes_later: false,
            done_after_7: false,
        }
    }

    fn has_path_fault(&self, s: usize) -> bool {
        (self.path >> s) % 2 == 1
    }

    /// The manifolds of which this holds, by their string's drops and close bits before and after.
    fn manifolds(&self, which: impl Fn(usize, u8, u8, u8) -> u8) -> Manifolds {
        let close = |word: u32| (word & ALL_MANIFOLDS) as u8;
        [0, 1, 2, 3].map(|s| which(s, self.drops[s], close(self.before[s]), close(self.after[s])))
    }

    fn done(&self) -> Manifolds {
        let is_done = |s| self.answer == TAKEN && !self.has_path_fault(s);
        self.manifolds(|s, drops, _, _| if is_done(s) { drops } else { 0 })
    }

    fn gone(&self) -> Manifolds {
        self.manifolds(|_, drops, before, after| drops & before & !after)
    }

    fn set_again(&self) -> Manifolds {
        let done = self.done();
        self.manifolds(|s, _, before, after| done[s] & before & after)
    }

    fn gained(&self) -> Manifolds {
        self.manifolds(|_, _, before, after| after & !before)
    }

    fn lost(&self) -> Manifolds {
        let is_lost = |s| self.answer == TAKEN && self.has_path_fault(s);
        self.manifolds(|s, drops, before, _| if is_lost(s) { drops & before } else { 0 })
    }

    /// The drops of set bits in a record that is refused.
    fn in_vain(&self) -> Manifolds {
        self.manifolds(|_, drops, before, _| if self.answer == TAKEN { 0 } else { drops & before })
    }

    /// Which of these the answer is, where the record asks for a set bit to be dropped.
    fn answered(&self, answers: &[u8]) -> Vec<usize> {
        let answer = answers.iter().position(|answer| *answer == self.answer);
        answer.filter(|_| self.in_vain() != [0; 4]).into_iter().collect()
    }
}

fn meet(some: Manifolds, others: Manifolds) -> bool {
    (0..4).any(|s| some[s] & others[s] != 0)
}

fn gone_by_path(asked: &Asked) -> Vec<usize> {
    let gone = asked.gone();
    let strings: Vec<usize> = (0..4).filter(|s| gone[*s] != 0).collect();
    let others = !strings.is_empty() && asked.path != 0;
    let back = strings.iter().any(|s| asked.recovers[*s]);
    [only(others, 0), only(back, 1)].concat()
}

fn gone_beside(asked: &Asked) -> Vec<usize> {
    let gone = asked.gone();
    let stays = asked.manifolds(|_, drops, before, after| before & after & !drops);
    let elsewhere = (0..4).any(|s| (0..4).any(|other| other != s && gone[s] & stays[other] != 0));
    let here = (0..4).any(|s| gone[s] != 0 && stays[s] != 0);
    [only(here, 0), only(elsewhere, 1)].concat()
}

fn several_gone(asked: &Asked) -> Vec<usize> {
    let gone = asked.gone();
    let of_one = gone.iter().any(|manifolds| manifolds.count_ones() > 1);
    let of_several = gone.iter().filter(|manifolds| **manifolds != 0).count() > 1;
    [only(of_one, 0), only(of_several, 1)].concat()
}

fn without_a_bit(asked: &Asked) -> Vec<usize> {
    let done = asked.done();
    let clear = asked.manifolds(|s, _, before, after| done[s] & !before & !after);
    [only(clear != [0; 4], 0), only(meet(done, asked.gained()), 1)].concat()
}

fn reaching_back(asked: &Asked) -> Vec<usize> {
    let at_third = asked.set_again() != [0; 4] || meet(asked.done(), asked.gained());
    [only(at_third, 0), only(asked.at_second_of_three, 1)].concat()
}

fn refused_with_7(asked: &Asked) -> Vec<usize> {
    let refused = asked.answer == BOTH_WAYS && asked.in_vain() != [0; 4];
    [only(refused, 0), only(asked.done_after_7, 1)].concat()
}

fn gone_by_distance(asked: &Asked) -> Vec<usize> {
    let variant = match asked.d {
        0..=1 => 0,
        2..=25 => 1,
        _ => 2,
    };
    only(asked.gone() != [0; 4], variant)
}

fn gone_in_halls(asked: &Asked) -> Vec<usize> {
    let gone = asked.gone();
    let without_jets = (0..4).any(|s| gone[s] & !asked.with_jets[s] != 0);
    let with_more = (0..4).any(|s| gone[s] != 0 && asked.before[s] > ALL_MANIFOLDS);
    [only(without_jets, 0), only(with_more, 1)].concat()
}
