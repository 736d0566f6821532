//! Seeded pairs of nights over the same map that agree on what is one tenant's, and on nothing else.

use crate::feed::masks_bytes;
use crate::hall::Masks;
use crate::jet::MANIFOLDS;
use crate::maps;
use crate::random::Random;
use crate::record::Record;
use crate::strangers::{opposite, Strangers};
use crate::tenant::{taken, Tenant};
use crate::tenant_line::Line;
use crate::world::{jets, Chances, World};

#[derive(Clone, Debug)]
pub struct Pair {
    pub tenant: Tenant,
    pub masks: Masks,
    /// What the program reads in each night: the masks, then the feed.
    pub inputs: [Vec<u8>; 2],
}

/// The tenants of any 32 seeds in a row have each manifold of each string.
pub fn pair(seed: u64) -> Pair {
    let mut random = Random(seed);
    let (string, manifold) = (seed as usize % 4, seed as usize / 4 % MANIFOLDS);
    let mut masks = maps::masks(&mut random);
    masks[string] = let_string(manifold, &mut random);
    let tenant = Tenant { string, manifold, mask: masks[string][manifold] };
    let own = Own::over(&masks, tenant, Random(random.number())).records();

    let mapped = masks.map(maps::union);
    let mut strangers = Strangers::awake(&masks, Random(random.number()));
    let first: Vec<Record> =
        own.iter().map(|(cycle, record)| tenant.joins(record, strangers.next(*cycle))).collect();
    let of_second = Random(random.number());
    let mut strangers = match random.below(3) {
        0 => Some(Strangers::asleep(&masks, of_second)),
        1 => Some(Strangers::awake(&masks, of_second)),
        _ => None,
    };
    let mut second = Vec::new();
    for ((cycle, own), first) in own.iter().zip(&first) {
        let record = match &mut strangers {
            Some(strangers) => strangers.next(*cycle),
            None => opposite(first.clone(), mapped, &mut random),
        };
        second.push(tenant.joins(own, record));
    }

    let cycles: Vec<u64> = own.iter().map(|(cycle, _)| *cycle).collect();
    let inputs = [first, second].map(|records| {
        let mut line = || Line::drawn(mapped, tenant, Random(random.number()));
        let mut input = sent(&masks, &cycles, &records, line());
        // Lost bytes that read as a record by chance, once in some thousand nights, would be one more that is taken.
        if !taken(&input).into_iter().map(|taken| taken.bytes).eq(records.iter().map(Record::bytes)) {
            input = sent(&masks, &cycles, &records, line());
        }
        input
    });
    Pair { tenant, masks, inputs }
}

/// The masks, and these records with what the line brings between them.
fn sent(masks: &Masks, cycles: &[u64], records: &[Record], mut line: Line) -> Vec<u8> {
    let mut input = masks_bytes(masks).to_vec();
    let mut last = (0, &Record::quiet(0));
    for (cycle, record) in cycles.iter().zip(records) {
        input.extend(line.between(last, record));
        input.extend(record.bytes());
        last = (*cycle, record);
    }
    input.extend(line.end());
    input
}

/// The masks of a string that is let: one jet, some or most of them on the tenant's manifold, the others on one to
/// seven of its neighbours, or on no manifold.
fn let_string(manifold: usize, random: &mut Random) -> [u32; MANIFOLDS] {
    let mut masks = [0; MANIFOLDS];
    let mut jets = random.shuffled(32).into_iter();
    let some = 2 + random.index(9);
    let its_jets = random.pick(&[1, some, some, 16, 25]);
    masks[manifold] = jets.by_ref().take(its_jets).map(|jet| 1 << jet).sum();
    let neighbours = random.pick(&[1, 2, 3, MANIFOLDS - 1, MANIFOLDS - 1]);
    let places: Vec<usize> = (1..=neighbours).map(|on| (manifold + on) % MANIFOLDS).collect();
    let in_no_mask = random.pick(&[0, 0, 4]);
    for (number, jet) in jets.enumerate() {
        match places.get(number) {
            Some(place) => masks[*place] |= 1 << jet,
            None if random.one_in(in_no_mask) => {}
            None => masks[random.pick(&places)] |= 1 << jet,
        }
    }
    masks
}

/// What the tenant does, and what befalls its jets, with the cycle numbers of it. Of its records only its part counts.
struct Own {
    tenant: Tenant,
    chances: Chances,
    world: World,
    random: Random,
    records: Vec<(u64, Record)>,
}

impl Own {
    fn over(masks: &Masks, tenant: Tenant, mut random: Random) -> Own {
        let chances = Chances::of_tenants(&mut random);
        Own { tenant, chances, world: World::over(masks), random, records: Vec::new() }
    }

    fn records(mut self) -> Vec<(u64, Record)> {
        for _ in 0..2 + self.random.below(3) {
            match self.random.below(2) {
                0 => self.each_cycle(),
                _ => self.majors(),
            }
        }
        self.records
    }

    fn cycle(&self) -> u64 {
        self.records.last().map_or(0, |(cycle, _)| *cycle)
    }

    /// Cycle after cycle, now and then one or a major one missed.
    fn each_cycle(&mut self) {
        for _ in 0..40 + self.random.index(60) {
            let short = 1 + self.random.below(4);
            let past_major = 26 - self.cycle() % 25;
            let far = 1 + self.random.below(32_767);
            let missed = self.random.pick(&[short, short, past_major, far]);
            let on = if self.random.one_in(self.chances.gaps) { missed } else { 1 };
            self.take(self.cycle() + on, |_, _| {});
        }
    }

    /// Majors, some with a minor before them. One of the tenant's jets is bad in most, with close bits that come and
    /// are dropped, requests, and a path that fails.
    fn majors(&mut self) {
        let bad = self.random.pick(&jets(self.tenant.mask));
        let leaks = self.random.one_in(2);
        let s = self.tenant.string;
        for turn in 0..8 + self.random.below(8) {
            let missed = self.random.pick(&[0, 0, 0, 0, 0, 0, 0, 0, 0, 1]);
            let major = self.cycle() + 25 * (1 + missed) - self.cycle() % 25;
            if major > self.cycle() + 1 && self.random.one_in(2) {
                self.take(major - 1, |_, _| {});
            }
            if self.random.one_in(3) {
                self.world.move_valves(&mut self.random);
            }
            let is_bad = !self.random.one_in(8);
            self.world.leak([if leaks && is_bad { bad } else { 0 }; 4]);
            self.take(major, |record, random| {
                if is_bad {
                    record.strings[s].commanded &= !bad;
                    record.strings[s].driver |= if leaks { 0 } else { bad };
                }
                record.path ^= u8::from(random.one_in(12)) << s;
                let words = &mut record.major.as_mut().expect("a major record").strings[s];
                if turn < 3 || !random.one_in(3) {
                    words.drops = 0;
                }
                if random.one_in(4) {
                    words.re_enable = random.word() & random.word() & !words.inhibit;
                }
            });
        }
        self.world.leak([0; 4]);
    }

    fn take(&mut self, cycle: u64, change: impl FnOnce(&mut Record, &mut Random)) {
        self.world.pass(&self.chances, &mut self.random);
        let mut record = self.world.record(cycle, &self.chances, &mut self.random);
        change(&mut record, &mut self.random);
        self.records.push((cycle, record));
    }
}
