//! Seeded feeds: nights of a lively hall, sent over a line that loses, damages, repeats and
//! makes up bytes.

use crate::feed::{masks_bytes, MASKS_LENGTH};
use crate::hall::Masks;
use crate::maps::masks;
use crate::random::Random;
use crate::record::{sum, Record, MAJOR, MAJOR_LENGTH, MARK, MINOR, MINOR_LENGTH};
use crate::world::{name_both_ways, reserve_a_path_bit, Chances, World};

#[derive(Clone, Debug)]
pub struct Night {
    pub(crate) random: Random,
    chances: Chances,
    pub(crate) world: World,
    /// The cycle of the last good record sent; the monitor's n, unless its count has ended.
    pub(crate) cycle: u64,
    last: Vec<u8>,
    pub damaged: u64,
}

/// How long the feed of a seed is to be, where each has its share of all bytes: some are short and some long, and they
/// come to the wanted total.
pub fn size(seed: u64, share: usize) -> usize {
    [share / 2 + 1, share / 2 + 1, share, 2 * share][(seed % 4) as usize]
}

/// What the program reads for a seed, masks and then a feed of about `size` bytes or more, and
/// how many spots of it are damaged.
pub fn input(seed: u64, size: usize) -> (Vec<u8>, u64) {
    let mut random = Random(seed);
    let masks = masks(&mut random);
    let mut bytes = masks_bytes(&masks).to_vec();
    // Some nights break off anywhere in their last records.
    let broken_off = if random.one_in(3) { random.index(700) } else { 0 };
    let begins_late = random.one_in(3);
    let begins_with_leaks = random.one_in(2);
    let begins_both_ways = random.one_in(4);
    let begins_with_drops = !random.one_in(3);
    let begins_behind_valves = !random.one_in(3);
    let mut night = Night::after(0, &masks, random);
    if begins_with_leaks {
        bytes.extend(night.leaks());
    }
    if begins_both_ways {
        bytes.extend(night.third_leak_both_ways());
    }
    if begins_with_drops {
        bytes.extend(night.drops(&masks));
    }
    if begins_behind_valves {
        bytes.extend(night.behind_valves(&masks));
    }
    if begins_late {
        bytes.extend(night.travel());
    }
    while bytes.len() < MASKS_LENGTH + size + broken_off {
        bytes.extend(night.step());
    }
    bytes.truncate(bytes.len() - broken_off);
    (bytes, night.damaged)
}

impl Night {
    /// A lively night that goes on from cycle `n`.
    pub fn after(n: u32, masks: &Masks, mut random: Random) -> Night {
        let chances = Chances::drawn(&mut random);
        Night::of(n, masks, chances, random)
    }

    /// A night of these chances.
    pub fn of(n: u32, masks: &Masks, chances: Chances, random: Random) -> Night {
        let last = Record::quiet(n.into()).bytes();
        Night { random, chances, world: World::over(masks), cycle: n.into(), last, damaged: 0 }
    }

    /// The next good record, and what the line puts before it.
    pub fn step(&mut self) -> Vec<u8> {
        let mut feed = Vec::new();
        self.world.pass(&self.chances, &mut self.random);
        if self.random.one_in(self.chances.odd) {
            feed.extend(self.odd());
        }
        if self.random.one_in(self.chances.damage) {
            self.damaged += 1;
            feed.extend(match self.random.below(6) {
                0 | 1 => self.false_major(),
                2 => self.major_that_hides_minors(),
                _ => self.damage(),
            });
        }
        feed.extend(self.up_to_good().iter().flat_map(Record::bytes));
        feed
    }

    /// The values of the next good record, and of those before it that name jets both ways, for a line that
    /// does nothing to them.
    pub fn next_records(&mut self) -> Vec<Record> {
        self.world.pass(&self.chances, &mut self.random);
        self.up_to_good()
    }

    fn up_to_good(&mut self) -> Vec<Record> {
        let next = self.next_cycle();
        match next.is_multiple_of(25) && self.random.one_in(self.chances.both_ways) {
            true => self.both_ways(next),
            false => vec![self.good_record(next)],
        }
    }

    fn next_cycle(&mut self) -> u64 {
        let to_major = 25 - self.cycle % 25;
        let far = 1 + self.random.below(32_767);
        let short = 2 + self.random.below(5);
        let on = if self.random.one_in(self.chances.jumps) {
            self.random.pick(&[32_767, far, 25 * (1 + far / 26)])
        } else if self.random.one_in(self.chances.gaps) {
            self.random.pick(&[short, short, to_major, to_major, to_major + 1, 30])
        } else {
            1
        };
        self.cycle + on
    }

    pub(crate) fn record(&mut self, cycle: u64) -> Record {
        self.world.record(cycle, &self.chances, &mut self.random)
    }

    pub(crate) fn good(&mut self, cycle: u64) -> Vec<u8> {
        self.good_record(cycle).bytes()
    }

    fn good_record(&mut self, cycle: u64) -> Record {
        let record = self.record(cycle);
        self.good_is_sent(cycle, record.bytes());
        record
    }

    pub(crate) fn good_is_sent(&mut self, cycle: u64, bytes: Vec<u8>) {
        self.cycle = cycle;
        self.last = bytes;
    }

    /// One or two major records that name jets both ways, then a good one: of the same cycle and with the
    /// same values but for that, or of the next cycle.
    pub(crate) fn both_ways(&mut self, cycle: u64) -> Vec<Record> {
        let good = self.record(cycle);
        let mut records = Vec::new();
        for _ in 0..self.random.pick(&[1, 1, 1, 2]) {
            let mut refused = good.clone();
            name_both_ways(&mut refused, self.world.mapped, &mut self.random);
            records.push(refused);
        }
        // After the longest jump the next cycle would be stale.
        if cycle - self.cycle == 32_767 || self.random.one_in(self.chances.sent_again) {
            self.good_is_sent(cycle, good.bytes());
            records.push(good);
        } else {
            records.push(self.good_record(cycle + 1));
        }
        records
    }

    /// A whole record that must be refused: stale, repeated or of the wrong kind. Half of the majors name
    /// jets both ways besides.
    fn odd(&mut self) -> Vec<u8> {
        let back = 1 + self.random.below(32_768);
        let near = 1 + self.random.below(60);
        let any_kind = self.random.pick(&[0, 1, 1, 1]);
        let (cycle, kind) = match self.random.below(7) {
            0 => (self.cycle + 65_536 - back, any_kind),
            1 => (self.cycle + 32_768, any_kind),
            2 => (self.cycle + 65_536 - near, any_kind),
            3 => (self.cycle, any_kind),
            4 => return self.last.clone(),
            _ => (self.cycle + near, u64::from((self.cycle + near).is_multiple_of(25))),
        };
        let mut record = self.record(kind);
        record.wire = cycle as u16;
        if self.random.one_in(2) {
            name_both_ways(&mut record, self.world.mapped, &mut self.random);
        }
        record.bytes()
    }

    /// Bytes that the reader must drop.
    fn damage(&mut self) -> Vec<u8> {
        let ahead = self.random.pick(&[1, 25 - self.cycle % 25]);
        let mut record = self.record(self.cycle + ahead);
        let mut bytes = record.bytes();
        let place = self.random.index(bytes.len());
        let length = self.random.pick(&[1, 3, 60, 700]);
        match self.random.below(10) {
            0 => *bytes.last_mut().expect("a sum") ^= 1 << self.random.below(8),
            1 => bytes[place] ^= 1 << self.random.below(8),
            2 => bytes.truncate(place),
            3 => drop(bytes.drain(..place)),
            4 => drop(bytes.remove(place)),
            5 => bytes.insert(place, MARK),
            6 => bytes = self.random.pick(&[&[MARK][..], &[MARK, MINOR], &[MARK, MAJOR]]).to_vec(),
            7 => bytes = self.random.junk(length),
            _ => {
                self.forbid(&mut record);
                bytes = record.bytes();
            }
        }
        bytes
    }

    /// A reserved bit or a quantity above 1,000; the sum will be right.
    fn forbid(&mut self, record: &mut Record) {
        let over = self.random.pick(&[1_001, 1_024, 0x8000, 0xFFFF]);
        match (&mut record.major, self.random.below(2)) {
            (Some(major), 0) => major.quantities[self.random.index(3)][self.random.index(2)] = over,
            _ => reserve_a_path_bit(record, &mut self.random),
        }
    }

    /// A major mark, then good minor records with zeros, junk or nothing around them.
    fn false_major(&mut self) -> Vec<u8> {
        let mut feed = vec![MARK, MAJOR];
        let most_between = self.random.pick(&[1, 8, 150]);
        let zeros = self.random.one_in(2);
        while !(self.cycle + 1).is_multiple_of(25) && feed.len() + MINOR_LENGTH < MAJOR_LENGTH {
            let between = self.random.index(most_between);
            feed.extend(if zeros { vec![0; between] } else { self.random.junk(between) });
            feed.extend(self.good(self.cycle + 1));
        }
        if self.random.one_in(2) {
            feed.resize(feed.len().max(MAJOR_LENGTH), 0);
        }
        feed
    }

    /// A major record, taken, repeated or one that names jets both ways, whose temperatures read as minor
    /// records, which must not be seen.
    fn major_that_hides_minors(&mut self) -> Vec<u8> {
        let to_major = 25 - self.cycle % 25;
        let is_refused = self.world.mapped != [0; 4] && self.random.one_in(3);
        let ahead: &[u64] = if is_refused { &[to_major, to_major + 25, 0] } else { &[to_major, 0] };
        let cycle = self.cycle + self.random.pick(ahead);
        let mut record = self.record(0);
        record.wire = cycle as u16;
        if is_refused {
            name_both_ways(&mut record, self.world.mapped, &mut self.random);
        }
        let mut bytes = record.bytes();
        bytes.truncate(MAJOR_LENGTH - 2);
        let temperatures = &mut bytes[57..57 + 512];
        for (hidden, ahead) in temperatures.chunks_exact_mut(MINOR_LENGTH).zip(1..) {
            let mut record = self.record(1);
            record.wire = (cycle + ahead) as u16;
            hidden.copy_from_slice(&record.bytes());
        }
        bytes.extend(sum(&bytes).to_be_bytes());
        if !is_refused {
            self.good_is_sent(cycle, bytes.clone());
        }
        bytes
    }
}
