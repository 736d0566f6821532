//! The cases that pairs of nights with the same tenant have to meet, and how often they did.

use crate::cases::{only, Cases, Named};
use crate::hall::{BOTH_WAYS, REPEAT, STALE, WRONG_KIND};
use crate::jet::MANIFOLDS;
use crate::tenant::Tenant;
use crate::tenant_night::{Night, BOTH_WAYS_OF};
use crate::tenants::Pair;
use std::fmt;

/// Reports are compared that have equally many records taken up to them.
const CASES: [Named<Seen>; 17] = [
    ("the tenant's string, 0 to 3", 4, |seen| vec![seen.pair.tenant.string]),
    ("its manifold, 0 to 7", MANIFOLDS, |seen| vec![seen.pair.tenant.manifold]),
    ("its jets: one, several, half of the string or more", 3, |seen| {
        vec![match seen.pair.tenant.mask.count_ones() {
            1 => 0,
            2..=15 => 1,
            _ => 2,
        }]
    }),
    ("manifolds with jets on its string: two, three to seven, all eight", 3, |seen| {
        vec![match seen.of_string().iter().filter(|mask| **mask != 0).count() {
            2 => 0,
            MANIFOLDS => 2,
            _ => 1,
        }]
    }),
    ("jets of its string on no manifold: none, some", 2, |seen| {
        vec![usize::from(seen.of_string().iter().sum::<u32>() != u32::MAX)]
    }),
    ("a report with a failed jet and the close bit of its manifold", 1, |seen| only(seen.closes(), 0)),
    (
        "of its manifold: a close bit dropped, dropped and set again, a drop lost under a path fault",
        3,
        |seen| seen.own(0..3),
    ),
    ("its path: fails, is back", 2, |seen| seen.own(3..5)),
    ("its valve: closes on good jets, opens and brings them back", 2, |seen| seen.own(5..7)),
    ("its requests: inhibits, re-enables done, re-enables ignored behind its closed valve", 3, |seen| {
        seen.own(7..10)
    }),
    ("its jets fail: without pressure, by the driver, by a leak, below zero", 4, |seen| seen.own(10..14)),
    ("before a record that is taken: cycles missed, a major one missed", 2, |seen| seen.own(14..16)),
    (
        "reports differ: in its neighbours' fail bits, their close bits, other strings' fail words, close bytes, \
         the balance, the lesser quantities, the differences",
        7,
        reports_differ,
    ),
    (
        "records taken differ: in other paths, other strings, its neighbours' commands, pressures, drivers, valves, \
         inhibits, re-enables, drops, temperatures, in what is said of jets on no manifold",
        11,
        records_differ,
    ),
    ("refused in one night more often: with 1, 2, 4, 7", 4, |seen| {
        let answers = [STALE, REPEAT, WRONG_KIND, BOTH_WAYS];
        let differs = |answer: u8| seen.nights[0].refused(answer) != seen.nights[1].refused(answer);
        which(answers.map(differs))
    }),
    (
        "answer 7 for a jet named both ways: a neighbour's, another string's, its own; for none of its own, and \
         the same cycle is taken",
        BOTH_WAYS_OF,
        |seen| which(seen.either(|night| night.both_ways_of)),
    ),
    ("bytes lost: in the first night only, in the second only, in both", 3, |seen| {
        let [first, second] = [0, 1].map(|night| seen.nights[night].lost > 0);
        which([first && !second, second && !first, first && second])
    }),
];
/// The tenant's own bits in a report of a record that is refused: by them the claim speaks of such reports too.
const REFUSED: Named<Seen> =
    ("a record refused, and its report shows: a failed jet of the tenant, its close bit", 2, |seen| {
        which(seen.either(|night| night.shown_by_refused))
    });

#[derive(Clone, Debug)]
pub struct TenantCases {
    cases: Cases<Seen>,
    pairs: u64,
    /// Pairs with a report that has a failed jet and the close bit of the tenant's manifold.
    closed: u64,
}

/// A pair, and what became of each night.
#[derive(Clone, Debug)]
struct Seen {
    pair: Pair,
    nights: [Night; 2],
}

impl Default for TenantCases {
    fn default() -> TenantCases {
        TenantCases { cases: Cases::of(CASES.into_iter().chain([REFUSED])), pairs: 0, closed: 0 }
    }
}

impl TenantCases {
    pub fn add(&mut self, pair: &Pair) {
        let nights = [0, 1].map(|night| Night::of(&pair.inputs[night], &pair.tenant));
        let seen = Seen { pair: pair.clone(), nights };
        self.pairs += 1;
        self.closed += u64::from(seen.closes());
        self.cases.add(&seen);
    }

    /// Demands that every variant of every case was met that often, and that in a quarter of the pairs a jet of the
    /// tenant's failed and its manifold had to be closed.
    pub fn each_met(&self, least: u64) -> Result<(), String> {
        match 4 * self.closed >= self.pairs {
            true => self.cases.each_met(least),
            false => Err(format!("of {} pairs only {} have a close bit", self.pairs, self.closed)),
        }
    }
}

impl Seen {
    fn of_string(&self) -> [u32; MANIFOLDS] {
        self.pair.masks[self.pair.tenant.string]
    }

    fn closes(&self) -> bool {
        self.nights[0].reports.iter().any(|report| {
            let (fail, close) = self.pair.tenant.sees(&report.bytes());
            fail != 0 && close
        })
    }

    /// What befell the tenant, which is the same in both nights.
    fn own(&self, events: std::ops::Range<usize>) -> Vec<usize> {
        let begin = events.start;
        events.filter(|event| self.nights[0].own[*event]).map(|event| event - begin).collect()
    }

    fn either<const N: usize>(&self, of: impl Fn(&Night) -> [bool; N]) -> [bool; N] {
        let [first, second] = [0, 1].map(|night| of(&self.nights[night]));
        std::array::from_fn(|number| first[number] || second[number])
    }
}

fn which<const N: usize>(holds: [bool; N]) -> Vec<usize> {
    (0..N).filter(|number| holds[*number]).collect()
}

fn reports_differ(seen: &Seen) -> Vec<usize> {
    let Tenant { string, mask, .. } = seen.pair.tenant;
    let mut differ = [false; 7];
    for (one, other) in seen.nights[0].of_taken().zip(seen.nights[1].of_taken()) {
        for s in 0..4 {
            let (its_own, at) = if s == string { (mask, 0) } else { (0, 2) };
            differ[at] |= (one.fail[s] ^ other.fail[s]) & !its_own != 0;
            differ[at + 1] |= one.close[s] != other.close[s];
        }
        differ[4] |= one.balance != other.balance;
        differ[5] |= one.lesser != other.lesser;
        differ[6] |= one.difference != other.difference;
    }
    which(differ)
}

fn records_differ(seen: &Seen) -> Vec<usize> {
    let s = seen.pair.tenant.string;
    let mapped = seen.of_string().iter().sum::<u32>();
    let mut differ = [false; 11];
    for (one, other) in seen.nights[0].taken.iter().zip(&seen.nights[1].taken) {
        differ[0] |= one.path != other.path;
        differ[1] |= (0..4).any(|string| string != s && one.strings[string] != other.strings[string]);
        let (words, other_words) = (&one.strings[s], &other.strings[s]);
        let mut jets = 0;
        let mut word = |place: usize, word: u32, other: u32| {
            differ[place] |= (word ^ other) & mapped != 0;
            jets |= word ^ other;
        };
        word(2, words.commanded, other_words.commanded);
        word(3, words.pressure, other_words.pressure);
        word(4, words.driver, other_words.driver);
        if let (Some(one), Some(other)) = (&one.major, &other.major) {
            let (one, other) = (&one.strings[s], &other.strings[s]);
            word(6, one.inhibit, other.inhibit);
            word(7, one.re_enable, other.re_enable);
            let other_words = |jet: &usize| one.temperatures[*jet] != other.temperatures[*jet];
            word(9, (0..32).filter(other_words).map(|jet| 1 << jet).sum(), 0);
            differ[8] |= one.drops != other.drops;
        }
        differ[5] |= words.valves != other_words.valves;
        differ[10] |= jets & !mapped != 0;
    }
    which(differ)
}

impl fmt::Display for TenantCases {
    fn fmt(&self, lines: &mut fmt::Formatter) -> fmt::Result {
        let TenantCases { cases, pairs, closed } = self;
        write!(lines, "{cases}{pairs} pairs, ")?;
        writeln!(
            lines,
            "in {closed} of them a report with a failed jet and the close bit of the tenant's manifold"
        )
    }
}
