//! Seeded nights as their sender has them: the values of records, and the reports that those values
//! must bring. No record is read back from bytes here.

use crate::generate::Night;
use crate::hall::{Hall, Masks};
use crate::maps::{masks, union};
use crate::random::Random;
use crate::record::{Record, MAJOR, MINOR};
use crate::report::Report;
use crate::request::Request;
use crate::world::name_both_ways;

#[derive(Clone, Debug)]
pub struct Dispatch {
    pub masks: Masks,
    pub requests: Vec<Request>,
    random: Random,
}

impl Dispatch {
    /// Records of rising cycles and the right kind, all to be taken; between them now and then one
    /// sent a short while before, one of the wrong kind, or majors that name jets both ways, whose
    /// cycle is then sent again without that, or left out.
    pub fn of(seed: u64, records: usize) -> Dispatch {
        // Far from the seeds of feeds, scripts, halls and requests.
        let mut random = Random(0x0D15_0000_0000 + seed);
        let masks = masks(&mut random);
        let mapped = masks.map(union);
        let mut night = Night::after(0, &masks, Random(random.number()));
        let mut sent: Vec<Record> = Vec::new();
        while sent.len() < records {
            let next = night.next_records();
            if random.one_in(40) {
                let recent = sent.iter().nth_back(random.index(10)).cloned();
                sent.extend(recent);
            }
            if random.one_in(60) {
                sent.extend(next.last().map(|good| of_other_kind(good, mapped, &mut random)));
            }
            sent.extend(next);
        }
        let requests = sent.into_iter().map(|record| roomy(record, &mut random)).collect();
        Dispatch { masks, requests, random }
    }

    /// What the monitor must report of these values, record by record.
    pub fn reports(&self) -> Vec<Vec<u8>> {
        let mut hall = Hall::fresh(&self.masks);
        let mut report = |request: &Request| {
            let answer = hall.settle(&request.record);
            Report::of(answer, &hall).bytes().to_vec()
        };
        self.requests.iter().map(&mut report).collect()
    }

    /// The written records one after the other, and in how many places there is noise before one.
    pub fn feed(&mut self, written: &[Vec<u8>], noise_once_in: u64) -> (Vec<u8>, u64) {
        let mut feed = Vec::new();
        let mut noisy = 0;
        for record in written {
            if self.random.one_in(noise_once_in) {
                feed.extend(self.noise());
                noisy += 1;
            }
            feed.extend(record);
        }
        (feed, noisy)
    }

    /// Bytes in which no mark is whole, so that no record behind them waits for more.
    fn noise(&mut self) -> Vec<u8> {
        let length = 1 + self.random.index(9);
        let mut noise = self.random.junk(length);
        noise.iter_mut().filter(|byte| [MINOR, MAJOR].contains(byte)).for_each(|byte| *byte = 0);
        noise
    }
}

/// Half the time it names jets both ways too, if it is a major one.
fn of_other_kind(record: &Record, mapped: [u32; 4], random: &mut Random) -> Record {
    let other = Record::quiet(u64::from(record.major.is_some()));
    let mut other = Record { major: other.major, ..record.clone() };
    if random.one_in(2) {
        name_both_ways(&mut other, mapped, random);
    }
    other
}

/// A request that must be written, often with room behind the record.
fn roomy(record: Record, random: &mut Random) -> Request {
    let mut request = Request { record, outbox_length: 0, fill: random.word() as u8 };
    request.outbox_length = request.record_length() + random.pick(&[0, 0, 1, 50]);
    request
}
