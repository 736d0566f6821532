//! What a line brings between the records that are taken: records that are refused, and bytes that are lost. None
//! of it changes which records are taken.

use crate::random::Random;
use crate::record::{Record, MAJOR_LENGTH};
use crate::strangers::wild;
use crate::tenant::Tenant;
use crate::world::{name_both_ways, reserve_a_path_bit};

#[derive(Clone, Debug)]
pub struct Line {
    /// Once in so many times a record that is refused comes before the next that is taken; 0 never.
    refused: u64,
    /// The same of bytes that are lost.
    lost: u64,
    mapped: [u32; 4],
    tenant: Tenant,
    random: Random,
}

impl Line {
    pub fn drawn(mapped: [u32; 4], tenant: Tenant, mut random: Random) -> Line {
        let refused = random.pick(&[0, 5, 20, 60]);
        let lost = random.pick(&[0, 0, 10, 40]);
        Line { refused, lost, mapped, tenant, random }
    }

    /// What comes between the record taken last, with its cycle number, and the next.
    pub fn between(&mut self, (n, last): (u64, &Record), next: &Record) -> Vec<u8> {
        let mut feed = Vec::new();
        while self.random.one_in(self.refused) {
            feed.extend(self.refused(n, last, next).bytes());
        }
        while self.random.one_in(self.lost) {
            feed.extend(self.lost(n, next));
        }
        feed
    }

    /// A mark that is lost can make the reader wait for as many bytes as a record has: here they are.
    pub fn end(&self) -> Vec<u8> {
        vec![0; if self.lost > 0 { MAJOR_LENGTH } else { 0 }]
    }

    /// Stale, repeated, of the wrong kind, or with a jet named both ways.
    fn refused(&mut self, n: u64, last: &Record, next: &Record) -> Record {
        let back = 1 + self.random.below(32_768);
        let near = 1 + self.random.below(60);
        let kind = self.random.below(2);
        let (cycle, kind) = match self.random.below(6) {
            0 => (n + 65_536 - back, kind),
            1 => (n + 65_536 - near, kind),
            2 => (n, kind),
            3 => return last.clone(),
            4 => (n + near, u64::from((n + near).is_multiple_of(25))),
            _ => return self.both_ways(n, next),
        };
        let mut record = wild(kind, self.mapped, &mut self.random);
        record.wire = cycle as u16;
        record
    }

    /// Mostly of a neighbour, and mostly the next record as it ought to have come.
    fn both_ways(&mut self, n: u64, next: &Record) -> Record {
        let mut record = match next.major.is_some() && !self.random.one_in(4) {
            true => next.clone(),
            false => wild(n + 25 - n % 25, self.mapped, &mut self.random),
        };
        let mut named = self.mapped;
        match self.random.below(3) {
            0 => {}
            1 => named[self.tenant.string] &= !self.tenant.mask,
            _ => {
                named = [0; 4];
                named[self.tenant.string] = self.mapped[self.tenant.string] & !self.tenant.mask;
            }
        }
        name_both_ways(&mut record, named, &mut self.random);
        record
    }

    /// A record that is broken, cut off or not allowed, of a cycle that may be due; or noise.
    fn lost(&mut self, n: u64, next: &Record) -> Vec<u8> {
        let ahead = self.random.pick(&[1, 25 - n % 25]);
        let mut record = match self.random.below(2) {
            0 => next.clone(),
            _ => wild(n + ahead, self.mapped, &mut self.random),
        };
        let mut bytes = record.bytes();
        let place = self.random.index(bytes.len());
        let length = self.random.pick(&[1, 3, 60, 700]);
        match self.random.below(6) {
            0 => *bytes.last_mut().expect("a sum") ^= 1 << self.random.below(8),
            1 => bytes[place] ^= 1 << self.random.below(8),
            2 => bytes.truncate(place),
            3 => drop(bytes.drain(..=place)),
            4 => bytes = self.random.junk(length),
            _ => {
                reserve_a_path_bit(&mut record, &mut self.random);
                bytes = record.bytes();
            }
        }
        bytes
    }
}
