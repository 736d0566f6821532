//! Whoever else is on the tables while a tenant works: all that records say and that is not the tenant's.

use crate::hall::Masks;
use crate::random::Random;
use crate::record::{Major, Record, StringWords};
use crate::tenant::Tenant;
use crate::world::{name_one_way, quantities, Chances, World};

#[derive(Clone, Debug)]
pub struct Strangers {
    manner: Manner,
    chances: Chances,
    world: World,
    random: Random,
}

#[derive(Clone, Copy, Debug, PartialEq, Eq)]
enum Manner {
    /// Nothing but quiet records.
    Asleep,
    /// As a hall is, with jets that fail and valves that move.
    Lively,
    /// Any bits, others in each record.
    Wild,
}

impl Strangers {
    pub fn asleep(masks: &Masks, random: Random) -> Strangers {
        Strangers::of(Manner::Asleep, masks, random)
    }

    pub fn awake(masks: &Masks, mut random: Random) -> Strangers {
        let manner = random.pick(&[Manner::Lively, Manner::Lively, Manner::Wild]);
        Strangers::of(manner, masks, random)
    }

    fn of(manner: Manner, masks: &Masks, mut random: Random) -> Strangers {
        let mut world = World::over(masks);
        world.leak([(); 4].map(|_| random.word() & random.word()));
        Strangers { manner, chances: Chances::of_tenants(&mut random), world, random }
    }

    /// A cycle goes by; what a record of it says. It names no jet of the map both ways.
    pub fn next(&mut self, cycle: u64) -> Record {
        self.world.pass(&self.chances, &mut self.random);
        match self.manner {
            Manner::Asleep => Record::quiet(cycle),
            Manner::Lively => self.world.record(cycle, &self.chances, &mut self.random),
            Manner::Wild => wild(cycle, self.world.mapped, &mut self.random),
        }
    }
}

/// Any bits in every place where any may stand.
pub fn wild(cycle: u64, mapped: [u32; 4], random: &mut Random) -> Record {
    let mut record = Record::quiet(cycle);
    record.path = random.below(16) as u8;
    for words in &mut record.strings {
        let [commanded, pressure, driver] = [(); 3].map(|_| random.word());
        *words = StringWords { commanded, pressure, driver, valves: random.word() as u8 };
    }
    if let Some(Major { strings, quantities: of_modules }) = &mut record.major {
        for (words, mapped) in strings.iter_mut().zip(mapped) {
            words.temperatures = [(); 32].map(|_| [random.word() as u16, random.word() as u16]);
            words.inhibit = random.word();
            words.re_enable = random.word();
            words.drops = random.word() as u8;
            name_one_way(words, mapped, random);
        }
        *of_modules = [(); 3].map(|_| quantities(random));
    }
    record
}

/// The record with every bit the other way round, but that it still names no jet of the map both ways.
pub fn opposite(mut record: Record, mapped: [u32; 4], random: &mut Random) -> Record {
    record.path ^= 0x0F;
    for words in &mut record.strings {
        let StringWords { commanded, pressure, driver, valves } = *words;
        *words = StringWords { commanded: !commanded, pressure: !pressure, driver: !driver, valves: !valves };
    }
    if let Some(major) = &mut record.major {
        for (words, mapped) in major.strings.iter_mut().zip(mapped) {
            words.temperatures = words.temperatures.map(|words| words.map(|word| !word));
            words.inhibit = !words.inhibit;
            words.re_enable = !words.re_enable;
            words.drops = !words.drops;
            name_one_way(words, mapped, random);
        }
        major.quantities = major.quantities.map(|banks| banks.map(|quantity| 1_000 - quantity));
    }
    record
}

impl Tenant {
    /// The strangers' record, but for what is the tenant's: that is as in its own record.
    pub fn joins(&self, own: &Record, mut record: Record) -> Record {
        let (s, jets, manifold) = (self.string, self.mask, 1 << self.manifold);
        let byte = |own: u8, other: u8, bits: u8| own & bits | other & !bits;
        let word = |own: u32, other: u32| own & jets | other & !jets;
        record.path = byte(own.path, record.path, 1 << s);
        let (from, to) = (&own.strings[s], &mut record.strings[s]);
        to.commanded = word(from.commanded, to.commanded);
        to.pressure = word(from.pressure, to.pressure);
        to.driver = word(from.driver, to.driver);
        to.valves = byte(from.valves, to.valves, manifold);
        if let (Some(own), Some(major)) = (&own.major, &mut record.major) {
            let (from, to) = (&own.strings[s], &mut major.strings[s]);
            for jet in (0..32).filter(|jet| jets >> jet & 1 == 1) {
                to.temperatures[jet] = from.temperatures[jet];
            }
            to.inhibit = word(from.inhibit, to.inhibit);
            to.re_enable = word(from.re_enable, to.re_enable);
            to.drops = byte(from.drops, to.drops, manifold);
        }
        record
    }
}
