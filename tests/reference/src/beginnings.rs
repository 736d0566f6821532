//! How some nights begin: with records made to meet what lively nights meet too seldom.

use crate::generate::Night;
use crate::hall::Masks;
use crate::maps::one_jet_of_each;
use crate::random::Random;
use crate::record::{Record, StringMajor};
use crate::world::{drops, name_both_ways, name_one_way, reserve_a_path_bit, telling_leaks};

impl Night {
    /// Nothing but majors of an idle hall. Leaks last for two of them, so that jets fail.
    pub(crate) fn leaks(&mut self) -> Vec<u8> {
        let mut feed = Vec::new();
        let strings = self.world.mapped.map(|mapped| telling_leaks(mapped, &mut self.random));
        for turn in 0..4 {
            self.world.leak(strings.map(|leaks| leaks[turn]));
            feed.extend([self.good(self.cycle + 25), self.good(self.cycle + 25)].concat());
        }
        self.world.leak([0; 4]);
        feed
    }

    /// Majors of a hall in which jets of one string leak. The third, which would close manifolds, names jets
    /// both ways: they close when its cycle is sent again, or by three majors more where it is missed.
    pub(crate) fn third_leak_both_ways(&mut self) -> Vec<u8> {
        let leaking = self.random.index(4);
        let mut strings = [0; 4];
        strings[leaking] = telling_leaks(self.world.mapped[leaking], &mut self.random)[3];
        self.world.leak(strings);
        let mut feed = [self.good(self.cycle + 25), self.good(self.cycle + 25)].concat();
        feed.extend(self.both_ways(self.cycle + 25).iter().flat_map(Record::bytes));
        for _ in 0..3 {
            feed.extend(self.good(self.cycle + 25 - self.cycle % 25));
        }
        self.world.leak([0; 4]);
        feed
    }

    /// Majors of a hall in which one jet of each manifold leaks in most of them, so that manifolds close and are
    /// dropped, some under a path fault. Some are spoilt first, and then sent again.
    pub(crate) fn drops(&mut self, masks: &Masks) -> Vec<u8> {
        let mut feed = Vec::new();
        let jets = masks.map(one_jet_of_each);
        for turn in 0..24 {
            let most = |random: &mut Random| if turn < 3 { u32::MAX } else { random.word() | random.word() };
            self.world.leak(jets.map(|jets| jets & most(&mut self.random)));
            let missed = if turn < 3 { 0 } else { self.random.pick(&[0, 0, 0, 0, 0, 0, 0, 1]) };
            let cycle = self.cycle + 25 * (1 + missed) - self.cycle % 25;
            let mut record = self.record(cycle);
            for (s, string) in record.major.iter_mut().flat_map(|major| &mut major.strings).enumerate() {
                string.drops = if turn < 3 || self.random.one_in(3) { 0 } else { drops(&mut self.random) };
                record.path |= u8::from(turn > 2 && self.random.one_in(4)) << s;
            }
            feed.extend(self.spoilt_before(&record).iter().flat_map(Record::bytes));
            feed.extend(record.bytes());
            self.good_is_sent(cycle, record.bytes());
        }
        self.world.leak([0; 4]);
        feed
    }

    /// The record with a reserved path bit, or with jets named both ways, or mostly none.
    fn spoilt_before(&mut self, record: &Record) -> Vec<Record> {
        let mut spoilt = record.clone();
        match self.random.below(6) {
            0 | 1 => reserve_a_path_bit(&mut spoilt, &mut self.random),
            2 => name_both_ways(&mut spoilt, self.world.mapped, &mut self.random),
            _ => return Vec::new(),
        }
        vec![spoilt]
    }

    /// Majors that ask for re-enables, most with a minor just before, while valves move, paths fail and come back,
    /// and one jet of each manifold leaks in most of them, so that some close behind their valves.
    pub(crate) fn behind_valves(&mut self, masks: &Masks) -> Vec<u8> {
        let mut feed = Vec::new();
        let (leaking, mapped) = (masks.map(one_jet_of_each), self.world.mapped);
        for _ in 0..16 {
            let missed = self.random.pick(&[0, 0, 0, 0, 0, 0, 0, 1]);
            let cycle = self.cycle + 25 * (1 + missed) - self.cycle % 25;
            self.world.leak(leaking.map(|jets| jets & (self.random.word() | self.random.word())));
            if !self.random.one_in(4) {
                let record = self.valves_move(cycle - 1);
                feed.extend(record.bytes());
                self.good_is_sent(cycle - 1, record.bytes());
            }
            let mut record = self.valves_move(cycle);
            let strings = record.major.iter_mut().flat_map(|major| &mut major.strings);
            for (string, mapped) in strings.zip(mapped) {
                requests(string, mapped, &mut self.random);
            }
            feed.extend(self.spoilt_before(&record).iter().flat_map(Record::bytes));
            feed.extend(record.bytes());
            self.good_is_sent(cycle, record.bytes());
        }
        self.world.leak([0; 4]);
        self.world.open_valves();
        feed
    }

    /// A record before which some valves have moved, and by which some paths fail, now and then all.
    fn valves_move(&mut self, cycle: u64) -> Record {
        self.world.move_valves(&mut self.random);
        let mut record = self.record(cycle);
        let all = self.random.one_in(20);
        for s in 0..4 {
            record.path |= u8::from(all || self.random.one_in(5)) << s;
        }
        record
    }

    /// Goes on in long jumps to just before the wire cycle wraps.
    pub(crate) fn travel(&mut self) -> Vec<u8> {
        let mut feed = Vec::new();
        for _ in 0..2 + self.random.below(3) {
            let left = 65_536 - self.cycle % 65_536;
            let short_of = self.random.below(left.min(30));
            feed.extend(self.good(self.cycle + (left - short_of).min(32_767)));
        }
        feed
    }
}

/// Asks to re-enable a few mapped jets, or all, and to inhibit fewer; now and then to drop close bits.
fn requests(words: &mut StringMajor, mapped: u32, random: &mut Random) {
    let few = random.word() & random.word();
    words.re_enable = mapped & random.pick(&[0, few, few, few, u32::MAX]);
    words.inhibit = mapped & few.rotate_left(1) & random.word();
    words.drops = if random.one_in(2) { drops(random) } else { 0 };
    name_one_way(words, mapped, random);
}
