//! What two nights have to agree on for a tenant: which bits that is, and that none of them can be spared.

mod common;

use common::{driver_on, no_pressure, with, with_major, NO_JETS};
use reference::feed::{masks_bytes, records, run};
use reference::hall::Masks;
use reference::maps::masks_of;
use reference::random::Random;
use reference::record::Record;
use reference::strangers::wild;
use reference::tenant::{taken, Taken, Tenant};
use reference::tenants::pair;

/// The tenant has jets 8 to 11, on manifold 5 of string 2; the neighbours are on manifolds 0 and 6.
const MASKS: Masks = [NO_JETS, NO_JETS, masks_of(&[0x0F, 0, 0, 0, 0, 0xF00, 0xF000]), NO_JETS];
const TENANT: Tenant = Tenant { string: 2, manifold: 5, mask: 0xF00 };
const JET: u32 = 0x200;
const JET_NUMBER: usize = 9;

fn input(records: &[Record]) -> Vec<u8> {
    let feed = records.iter().flat_map(Record::bytes);
    masks_bytes(&MASKS).into_iter().chain(feed).collect()
}

/// Two nights that differ in one record, and there in one bit of this place besides the sum: they don't agree, for
/// that place, and some report shows the tenant something else.
fn is_needed(place: &str, mut night: Vec<Record>, number: usize, other: Record) {
    let bits = |(one, other): (u8, u8)| (one ^ other).count_ones();
    let differing = night[number].values().into_iter().zip(other.values()).map(bits).sum::<u32>();
    assert_eq!(differing, 1, "{place}");
    let one = input(&night);
    night[number] = other;
    let other = input(&night);
    let why = TENANT.agree(&taken(&one), &taken(&other)).expect_err(place);
    assert!(why.starts_with(&format!("{place}: ")), "{place}: {why}");
    TENANT.agree(&taken(&one), &taken(&one)).expect("a night agrees with itself");
    TENANT.sees_the_same(&run(&one), &run(&other)).expect_err(place);
}

/// Jet 9 is commanded at 1, 2, 3 and has no pressure.
fn fails_off() -> Vec<Record> {
    (1..=3).map(|n| no_pressure(n, 2, JET)).collect()
}

/// Its driver is on at 25, 50 and 75.
fn stuck() -> Vec<Record> {
    [25, 50, 75].map(|n| driver_on(n, 2, JET)).to_vec()
}

fn with_path(mut record: Record) -> Record {
    record.path = 1 << 2;
    record
}

fn with_temperatures(n: u64, words: [u16; 2]) -> Record {
    with_major(n, 2, |major| major.temperatures[JET_NUMBER] = words)
}

#[test]
fn the_path_bit_in_minor_records() {
    is_needed("path", fails_off(), 1, with_path(no_pressure(2, 2, JET)));
}

#[test]
fn the_path_bit_in_major_records() {
    is_needed("path", stuck(), 1, with_path(driver_on(50, 2, JET)));
}

#[test]
fn the_valve_bit() {
    is_needed("valve", vec![Record::quiet(1)], 0, with(1, 2, |words| words.valves = !(1 << 5)));
    is_needed("valve", vec![Record::quiet(25)], 0, with(25, 2, |words| words.valves = !(1 << 5)));
}

#[test]
fn the_drop_bit() {
    let night = [stuck(), vec![Record::quiet(100)]].concat();
    is_needed("drop", night, 3, with_major(100, 2, |major| major.drops = 1 << 5));
}

#[test]
fn the_commanded_bit() {
    is_needed("commanded", fails_off(), 1, Record::quiet(2));
    let fails_by_a_major = (24..=26).map(|n| no_pressure(n, 2, JET)).collect();
    is_needed("commanded", fails_by_a_major, 1, Record::quiet(25));
}

#[test]
fn the_pressure_bit() {
    let with_pressure = |n| {
        with(n, 2, |words| {
            words.commanded = JET;
            words.pressure = JET;
        })
    };
    is_needed("pressure", fails_off(), 2, with_pressure(3));
    let fails_by_a_major = (24..=26).map(|n| no_pressure(n, 2, JET)).collect();
    is_needed("pressure", fails_by_a_major, 1, with_pressure(25));
}

#[test]
fn the_driver_bit_in_major_records() {
    is_needed("driver", stuck(), 1, Record::quiet(50));
}

/// The order names the driver bit of every record; in a minor one nothing looks at it.
#[test]
fn the_driver_bit_in_minor_records_is_to_agree_and_changes_nothing() {
    for seed in 0..8 {
        let pair = pair(seed);
        let (masks, mut records) = records(&pair.inputs[0]);
        let reports = |records: &[Record]| {
            let feed = records.iter().flat_map(Record::bytes);
            run(&masks_bytes(&masks).into_iter().chain(feed).collect::<Vec<u8>>())
        };
        let before = reports(&records);
        let minors = records.iter_mut().filter(|record| record.major.is_none());
        minors.flat_map(|record| &mut record.strings).for_each(|words| words.driver = !words.driver);
        assert_eq!(reports(&records), before, "seed {seed}");
    }
    let [one, other] = [Record::quiet(1), driver_on(1, 2, JET)].map(|record| taken(&input(&[record])));
    assert!(TENANT.agree(&one, &other).expect_err("drivers").starts_with("driver: "));
}

#[test]
fn the_fuel_temperature() {
    let leaks = [25, 50].map(|n| with_temperatures(n, [0, 64])).to_vec();
    is_needed("fuel temperature", leaks, 1, with_temperatures(50, [64, 64]));
}

#[test]
fn the_oxidizer_temperature() {
    let leaks = [25, 50].map(|n| with_temperatures(n, [64, 0])).to_vec();
    is_needed("oxidizer temperature", leaks, 1, with_temperatures(50, [64, 64]));
}

#[test]
fn the_inhibit_bit() {
    is_needed("inhibit", vec![Record::quiet(25)], 0, with_major(25, 2, |major| major.inhibit = JET));
}

#[test]
fn the_re_enable_bit() {
    let night = [fails_off(), vec![Record::quiet(25)]].concat();
    is_needed("re-enable", night, 3, with_major(25, 2, |major| major.re_enable = JET));
}

#[test]
fn the_cycle_number() {
    let night = (5..=7).map(|n| no_pressure(n, 2, JET)).collect();
    is_needed("cycle number", night, 2, no_pressure(15, 2, JET));
}

/// The kind can be told from the cycle number where records are taken; it has to agree all the same.
#[test]
fn the_kind() {
    for seed in 0..8 {
        for Taken { n, bytes } in pair(seed).inputs.iter().flat_map(|input| taken(input)) {
            assert_eq!(bytes.len(), if n % 25 == 0 { 619 } else { 59 });
        }
    }
    let [minor, major] = [1, 25].map(|n| Taken { n: 25, bytes: Record::quiet(n).bytes() });
    assert!(TENANT.agree(&[minor], &[major]).expect_err("kinds").starts_with("kind: "));
}

#[test]
fn the_number_of_records_taken() {
    let [longer, shorter] = [3, 2].map(|length| taken(&input(&fails_off()[..length])));
    assert!(TENANT.agree(&longer, &shorter).expect_err("numbers").starts_with("number of records taken: "));
    assert!(TENANT.agree(&shorter, &longer).is_err());
}

/// One bit each of path, valve and drop; and of each jet one commanded, pressure, driver, inhibit and re-enable bit and
/// 32 of temperatures. A minor record has neither drops, temperatures nor requests.
#[test]
fn each_of_these_bits_has_to_agree_and_no_other() {
    let mut random = Random(9);
    for tenant in [
        TENANT,
        Tenant { string: 0, manifold: 0, mask: 1 },
        Tenant { string: 3, manifold: 7, mask: 0x8000_0001 },
        Tenant { string: 1, manifold: 2, mask: u32::MAX },
    ] {
        let jets = tenant.mask.count_ones() as usize;
        for (n, number) in [(24, 2 + 3 * jets), (25, 3 + (5 + 32) * jets)] {
            let bytes = wild(n.into(), [u32::MAX; 4], &mut random).bytes();
            let has_to_agree = |place: &usize| {
                let mut other = bytes.clone();
                other[place / 8] ^= 1 << (place % 8);
                let [one, other] = [bytes.clone(), other].map(|bytes| [Taken { n, bytes }]);
                tenant.agree(&one, &other).is_err()
            };
            // The mark is the kind; the wire cycle and the sum are not looked at.
            let places: Vec<usize> = (2 * 8..8 * bytes.len()).filter(has_to_agree).collect();
            assert_eq!(places.len(), number, "{tenant:?}, cycle {n}");
            let values = 4 * 8..8 * (bytes.len() - 2);
            assert!(places.iter().all(|place| values.contains(place)), "{tenant:?}, cycle {n}");
        }
    }
}
