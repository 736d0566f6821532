//! The hall that the generated records tell of: jets that fail, valves that move, paths that
//! break, requests, temperatures and quantities.

use crate::hall::Masks;
use crate::jet::{bit, ALL_MANIFOLDS, MANIFOLDS};
use crate::maps::union;
use crate::random::Random;
use crate::record::{Major, Record, StringMajor, ALL_OPEN};
use crate::slips::slip;

/// Which words of a jet leak, fuel then oxidizer.
const NEITHER: [bool; 2] = [false, false];
const FUEL: [bool; 2] = [true, false];
const OXIDIZER: [bool; 2] = [false, true];
const BOTH: [bool; 2] = [true, true];

/// What a night is like, in the hall and on the line. Each number n means "once in n", 0 never.
#[derive(Clone, Debug)]
pub struct Chances {
    jets: u64,
    valves: u64,
    paths: u64,
    requests: u64,
    /// A string of a major record asks for close bits to be dropped.
    drops: u64,
    /// A major record names jets both ways.
    pub both_ways: u64,
    /// Its cycle is then sent again without that.
    pub sent_again: u64,
    noise: u64,
    pub gaps: u64,
    pub jumps: u64,
    pub damage: u64,
    pub odd: u64,
    /// A record of a calm hall has a slip.
    slips: u64,
}

impl Chances {
    pub fn drawn(random: &mut Random) -> Chances {
        Chances {
            jets: random.pick(&[3, 10, 40]),
            valves: random.pick(&[0, 60, 400]),
            paths: random.pick(&[0, 100, 1_000]),
            requests: random.pick(&[0, 2, 6]),
            drops: random.pick(&[0, 0, 2, 6, 20]),
            both_ways: random.pick(&[0, 0, 0, 8, 3]),
            sent_again: random.pick(&[0, 1, 2]),
            noise: random.pick(&[0, 0, 5, 50]),
            gaps: random.pick(&[0, 15, 100, 300]),
            jumps: random.pick(&[0, 200, 1_000]),
            damage: random.pick(&[0, 4, 25, 200]),
            odd: random.pick(&[0, 5, 30, 200]),
            slips: 0,
        }
    }

    /// A calm hall: nothing but slips, and little on the line.
    pub fn calm(random: &mut Random) -> Chances {
        Chances {
            jets: 0,
            valves: 0,
            paths: 0,
            requests: 0,
            drops: 0,
            both_ways: 0,
            sent_again: 0,
            noise: 0,
            gaps: random.pick(&[0, 150, 1_000]),
            jumps: random.pick(&[0, 0, 3_000]),
            damage: random.pick(&[0, 60, 400]),
            odd: random.pick(&[0, 60, 400]),
            slips: random.pick(&[6, 20, 100]),
        }
    }

    /// For a string that is let: much happens in a short night. What the line does is not drawn here.
    pub fn of_tenants(random: &mut Random) -> Chances {
        Chances {
            jets: random.pick(&[3, 6]),
            valves: random.pick(&[60, 200]),
            paths: random.pick(&[0, 50, 200]),
            requests: random.pick(&[0, 3, 6]),
            drops: random.pick(&[2, 4]),
            noise: random.pick(&[0, 0, 20]),
            gaps: random.pick(&[0, 15, 60]),
            both_ways: 0,
            sent_again: 0,
            jumps: 0,
            damage: 0,
            odd: 0,
            slips: 0,
        }
    }
}

#[derive(Clone, Debug, Default)]
pub struct World {
    /// The jets that the map names, string by string.
    pub mapped: [u32; 4],
    path: u8,
    strings: [StringWorld; 4],
}

#[derive(Clone, Debug, Default)]
struct StringWorld {
    commanded: u32,
    failing_off: u32,
    stuck_on: u32,
    leaking: u32,
    closed: u8,
}

impl World {
    /// A quiet hall.
    pub fn over(masks: &Masks) -> World {
        World { mapped: masks.map(union), ..World::default() }
    }

    /// One cycle goes by.
    pub fn pass(&mut self, chances: &Chances, random: &mut Random) {
        for (s, string) in self.strings.iter_mut().enumerate() {
            random.flip(&mut self.path, s, chances.paths, 15);
            for manifold in 0..MANIFOLDS {
                random.flip(&mut string.closed, manifold, chances.valves, 30);
            }
            if random.one_in(4) {
                string.commanded = random.word() & random.word();
            }
            if random.one_in(chances.jets) {
                string.change(random.jet(), random);
            }
        }
    }

    /// A record of the right kind for the cycle. Only jets in no mask are named both ways.
    pub fn record(&self, cycle: u64, chances: &Chances, random: &mut Random) -> Record {
        let mut record = Record::quiet(cycle);
        record.path = self.path;
        for (words, string) in record.strings.iter_mut().zip(&self.strings) {
            words.commanded = string.commanded;
            words.pressure = string.commanded & !string.failing_off | string.stuck_on;
            words.driver = string.commanded | string.stuck_on;
            words.valves = ALL_OPEN & !string.closed;
            if random.one_in(chances.noise) {
                words.commanded = random.word();
                words.pressure = random.word();
                words.driver = random.word();
            }
        }
        if let Some(major) = &mut record.major {
            self.fill(major, chances, random);
        }
        if random.one_in(chances.slips) {
            slip(&mut record, random);
        }
        record
    }

    /// These jets leak, and no others.
    pub fn leak(&mut self, jets: [u32; 4]) {
        for (string, leaking) in self.strings.iter_mut().zip(jets) {
            string.leaking = leaking;
        }
    }

    /// One valve in six or so moves.
    pub fn move_valves(&mut self, random: &mut Random) {
        for string in &mut self.strings {
            for manifold in 0..MANIFOLDS {
                random.flip(&mut string.closed, manifold, 7, 5);
            }
        }
    }

    pub fn open_valves(&mut self) {
        self.strings.iter_mut().for_each(|string| string.closed = 0);
    }

    fn fill(&self, major: &mut Major, chances: &Chances, random: &mut Random) {
        for (s, string) in self.strings.iter().enumerate() {
            let words = &mut major.strings[s];
            words.temperatures = temperatures(string.leaking, random);
            if random.one_in(chances.requests) {
                let both = random.jet() & random.word();
                words.inhibit = both | random.jet() | random.jet();
                words.re_enable = both | random.jet() | random.word() & random.word() & random.word();
                name_one_way(words, self.mapped[s], random);
            }
            if random.one_in(chances.drops) {
                words.drops = drops(random);
            }
        }
        major.quantities = [(); 3].map(|_| quantities(random));
    }
}

impl StringWorld {
    fn change(&mut self, jet: u32, random: &mut Random) {
        match random.below(5) {
            0 => self.failing_off ^= jet,
            1 => self.failing_off |= jet | random.jet(),
            2 => self.stuck_on ^= jet,
            3 => self.leaking ^= jet,
            _ => {
                let left = !jet & random.word();
                self.failing_off &= left;
                self.stuck_on &= left;
                self.leaking &= left;
            }
        }
    }
}

/// Asks for one manifold's close bit to be dropped, or for those of any, often of several or all.
pub fn drops(random: &mut Random) -> u8 {
    let all = ALL_MANIFOLDS as u8;
    let one = 1 << random.index(MANIFOLDS);
    let any = all & random.word() as u8;
    random.pick(&[one, any, any, all])
}

/// One of bits 4 to 7 of the path byte, by which a record is lost though its sum is right.
pub fn reserve_a_path_bit(record: &mut Record, random: &mut Random) {
    record.path |= 0x10 << random.below(4);
}

/// Leaves each of these jets one of its two requests, where it has both.
pub fn name_one_way(words: &mut StringMajor, jets: u32, random: &mut Random) {
    let both = words.inhibit & words.re_enable & jets;
    let inhibited = both & random.word();
    words.inhibit &= !both | inhibited;
    words.re_enable &= !inhibited;
}

/// Names mapped jets of a major record both ways, often one alone and often only in strings whose path fails.
pub fn name_both_ways(record: &mut Record, mapped: [u32; 4], random: &mut Random) {
    let strings: Vec<usize> = (0..4).filter(|s| mapped[*s] != 0).collect();
    let (Some(major), false) = (&mut record.major, strings.is_empty()) else {
        return;
    };
    let some = random.below(16) as u8;
    let failing = random.pick(&[0, 0, 0x0F, 0x0F, some]);
    for _ in 0..random.pick(&[1, 1, 1, 1, 2, 6]) {
        let s = random.pick(&strings);
        let jets = jets(mapped[s]);
        let (any, other) = (random.pick(&jets), random.pick(&jets));
        let one = random.pick(&[jets[0], jets[jets.len() - 1], any, any]);
        let named = random.pick(&[one, one, one, one, any | other, mapped[s]]);
        major.strings[s].inhibit |= named;
        major.strings[s].re_enable |= named;
        record.path |= failing & 1 << s;
    }
}

/// Leaks that tell whether each mapped jet is tested and no other: of jets in no mask, of the lowest mapped
/// one, of the highest, of a few.
pub fn telling_leaks(mapped: u32, random: &mut Random) -> [u32; 4] {
    let others = !mapped & random.word();
    let jets = jets(mapped);
    let (Some(lowest), Some(highest)) = (jets.first(), jets.last()) else {
        return [others, 0, 0, 0];
    };
    let few = (0..4).fold(0, |few, _| few | random.pick(&jets));
    [others, *lowest, *highest, few]
}

/// The jets of a word, each as its bit, lowest first.
pub fn jets(word: u32) -> Vec<u32> {
    (0..32).map(|jet| 1 << jet).filter(|jet| word & jet != 0).collect()
}

/// Temperatures by which these jets leak: all by the fuel word, by the oxidizer word, by both, or each by one.
/// The two words of a jet are often the same.
pub fn temperatures(leaking: u32, random: &mut Random) -> [[u16; 2]; 32] {
    let ways = random.pick(&[&[FUEL][..], &[OXIDIZER], &[BOTH], &[FUEL, OXIDIZER]]);
    let mut temperatures = [[0; 2]; 32];
    for (jet, words) in temperatures.iter_mut().enumerate() {
        let is_cold = if bit(leaking, jet) { random.pick(ways) } else { NEITHER };
        *words = is_cold.map(|is_cold| if is_cold { cold(random) } else { warm(random) });
        if is_cold[0] == is_cold[1] && random.one_in(2) {
            words[1] = words[0];
        }
    }
    temperatures
}

/// A word that leaks: often an end of one of the two ranges or the word beside it, or else any of either.
fn cold(random: &mut Random) -> u16 {
    let from_zero = random.below(64) as u16;
    let below_zero = 32_768 + random.below(32_768) as u16;
    let any = random.pick(&[from_zero, below_zero]);
    random.pick(&[0, 63, 32_768, 65_535, 0, 63, 32_768, 65_535, 1, 62, 32_769, 65_534, any, any, any])
}

/// A word that does not leak: often an end of the range or the word beside it, or else a single bit or any.
fn warm(random: &mut Random) -> u16 {
    let single_bit = 64 << random.below(9);
    let any = 64 + random.below(32_768 - 64) as u16;
    random.pick(&[64, 32_767, 64, 32_767, 65, 32_766, single_bit, any, any, any])
}

/// Any quantities, or two that are equal, or apart by about the 16 tenths of the border, by about what a byte holds
/// or by about all that can be, either way round.
pub fn quantities(random: &mut Random) -> [u16; 2] {
    let any = [(); 2].map(|_| random.below(1_001) as u16);
    let apart = random.pick(&[0, 1, 15, 16, 17, 18, 255, 256, 257, 999, 1_000]);
    let less = random.below(1_001 - apart) as u16;
    let more = less + apart as u16;
    random.pick(&[any, [less, more], [more, less]])
}
