//! Records of the feed: what they say, and their bytes. Numbers have the high byte first.

use crate::jet::ALL_MANIFOLDS;

pub const MARK: u8 = 0x52;
pub const MINOR: u8 = 0x4D;
pub const MAJOR: u8 = 0x4A;
pub const MINOR_LENGTH: usize = 59;
pub const MAJOR_LENGTH: usize = 619;
/// A valve byte that says of all manifolds that they are open.
pub const ALL_OPEN: u8 = ALL_MANIFOLDS as u8;

#[derive(Clone, Debug, PartialEq, Eq)]
pub struct Record {
    pub wire: u16,
    pub path: u8,
    pub strings: [StringWords; 4],
    pub major: Option<Major>,
}

#[derive(Clone, Copy, Debug, PartialEq, Eq)]
pub struct StringWords {
    pub commanded: u32,
    pub pressure: u32,
    pub driver: u32,
    pub valves: u8,
}

/// What only a major record carries.
#[derive(Clone, Debug, PartialEq, Eq)]
pub struct Major {
    pub strings: [StringMajor; 4],
    /// Module by module, fuel then oxidizer, in tenths of a percent.
    pub quantities: [[u16; 2]; 3],
}

#[derive(Clone, Copy, Debug, PartialEq, Eq)]
pub struct StringMajor {
    /// Jet by jet, fuel then oxidizer.
    pub temperatures: [[u16; 2]; 32],
    pub inhibit: u32,
    pub re_enable: u32,
    /// Bit i: the close bit of manifold i is to be dropped.
    pub drops: u8,
}

impl Record {
    /// A quiet record of the right kind for cycle `n`: valves open, temperature words 64.
    pub fn quiet(n: u64) -> Record {
        let string = StringWords { commanded: 0, pressure: 0, driver: 0, valves: ALL_OPEN };
        let string_major = StringMajor { temperatures: [[64; 2]; 32], inhibit: 0, re_enable: 0, drops: 0 };
        let major = Major { strings: [string_major; 4], quantities: [[0; 2]; 3] };
        let major = n.is_multiple_of(25).then_some(major);
        Record { wire: n as u16, path: 0, strings: [string; 4], major }
    }

    /// The record's bytes with the right sum, reserved bits and large quantities as they stand.
    pub fn bytes(&self) -> Vec<u8> {
        let mut bytes = vec![MARK, if self.major.is_some() { MAJOR } else { MINOR }];
        bytes.extend(self.values());
        bytes.extend(sum(&bytes).to_be_bytes());
        bytes
    }

    /// The bytes between mark and sum.
    pub fn values(&self) -> Vec<u8> {
        let mut bytes = self.wire.to_be_bytes().to_vec();
        bytes.push(self.path);
        for string in &self.strings {
            bytes.extend(string.commanded.to_be_bytes());
            bytes.extend(string.pressure.to_be_bytes());
            bytes.extend(string.driver.to_be_bytes());
            bytes.push(string.valves);
        }
        if let Some(major) = &self.major {
            for word in major.strings.iter().flat_map(|string| string.temperatures).flatten() {
                bytes.extend(word.to_be_bytes());
            }
            for string in &major.strings {
                bytes.extend(string.inhibit.to_be_bytes());
                bytes.extend(string.re_enable.to_be_bytes());
            }
            bytes.extend(major.strings.iter().map(|string| string.drops));
            for quantity in major.quantities.iter().flatten() {
                bytes.extend(quantity.to_be_bytes());
            }
        }
        bytes
    }

    /// The record that has these bytes between mark and sum, allowed or not.
    pub fn of_values(is_major: bool, mut left: &[u8]) -> Record {
        let mut number = |length| {
            let (front, rest) = left.split_at(length);
            left = rest;
            front.iter().fold(0, |number, byte| number * 256 + u32::from(*byte))
        };
        let mut record = Record::quiet(if is_major { 0 } else { 1 });
        record.wire = number(2) as u16;
        record.path = number(1) as u8;
        for string in &mut record.strings {
            string.commanded = number(4);
            string.pressure = number(4);
            string.driver = number(4);
            string.valves = number(1) as u8;
        }
        if let Some(major) = &mut record.major {
            for word in major.strings.iter_mut().flat_map(|string| &mut string.temperatures).flatten() {
                *word = number(2) as u16;
            }
            for string in &mut major.strings {
                string.inhibit = number(4);
                string.re_enable = number(4);
            }
            for string in &mut major.strings {
                string.drops = number(1) as u8;
            }
            for quantity in major.quantities.iter_mut().flatten() {
                *quantity = number(2) as u16;
            }
        }
        record
    }

    /// Reads a full record, mark and length already known to fit. `None` if its sum is wrong,
    /// a reserved bit is set or a quantity is above 1,000.
    pub fn read(bytes: &[u8]) -> Option<Record> {
        let (summed, end) = bytes.split_at(bytes.len() - 2);
        let record = Record::of_values(bytes[1] == MAJOR, &summed[2..]);
        let right_sum = sum(summed).to_be_bytes() == end;
        (right_sum && !record.has_reserved_bit() && !record.has_large_quantity()).then_some(record)
    }

    /// One of bits 4 to 7 of the path byte is set.
    pub fn has_reserved_bit(&self) -> bool {
        self.path >= 16
    }

    /// A quantity is above 1,000, which only a major record can have.
    pub fn has_large_quantity(&self) -> bool {
        let quantities = self.major.iter().flat_map(|major| major.quantities).flatten();
        quantities.into_iter().any(|quantity| quantity > 1_000)
    }
}

/// The given bytes added modulo 65,536.
pub fn sum(bytes: &[u8]) -> u16 {
    (bytes.iter().map(|byte| u32::from(*byte)).sum::<u32>() % 65_536) as u16
}
