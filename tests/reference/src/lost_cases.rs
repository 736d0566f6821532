//! The cases of records that are lost by a reserved bit, and how often they were met.

use crate::cases::{only, Cases, Named};
use crate::feed::records_and_lost;
use crate::record::{Record, MAJOR};
use std::fmt;

const CASES: [Named<Record>; 2] = [
    ("a minor lost by one reserved path bit alone: bit 4, 5, 6, 7", 4, |record| {
        reserved_bit(record, record.major.is_none())
    }),
    ("a major lost by one reserved path bit alone: bit 4, 5, 6, 7", 4, |record| {
        reserved_bit(record, record.major.is_some())
    }),
];

#[derive(Clone, Debug)]
pub struct LostCases(Cases<Record>);

impl Default for LostCases {
    fn default() -> LostCases {
        LostCases(Cases::of(CASES))
    }
}

impl LostCases {
    /// What the program reads for a night.
    pub fn add_feed(&mut self, input: &[u8]) {
        records_and_lost(input, |lost| self.add(lost));
    }

    /// The bytes of a full record that was lost.
    pub fn add(&mut self, bytes: &[u8]) {
        let record = Record::of_values(bytes[1] == MAJOR, &bytes[2..bytes.len() - 2]);
        let has_right_sum = record.bytes() == bytes;
        if has_right_sum {
            self.0.add(&record);
        }
    }

    /// Demands that every variant of every case was met that often.
    pub fn each_met(&self, least: u64) -> Result<(), String> {
        self.0.each_met(least)
    }
}

impl fmt::Display for LostCases {
    fn fmt(&self, lines: &mut fmt::Formatter) -> fmt::Result {
        self.0.fmt(lines)
    }
}

fn reserved_bit(record: &Record, is_of_kind: bool) -> Vec<usize> {
    let reserved = record.path / 16;
    let cleared = Record { path: record.path % 16, ..record.clone() };
    let is_else_good = Record::read(&cleared.bytes()).is_some();
    let one = reserved.is_power_of_two();
    only(is_of_kind && is_else_good && one, reserved.trailing_zeros() as usize)
}
