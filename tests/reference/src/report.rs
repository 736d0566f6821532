//! The report of a settled record, 40 bytes.

use crate::hall::Hall;

pub const REPORT_LENGTH: usize = 40;

#[derive(Clone, Debug, PartialEq, Eq)]
pub struct Report {
    pub answer: u8,
    pub n: u32,
    pub fail: [u32; 4],
    pub close: [u8; 4],
    pub balance: u8,
    pub lesser: [u16; 3],
    /// Fuel less oxidizer.
    pub difference: [i16; 3],
}

impl Report {
    pub fn of(answer: u8, hall: &Hall) -> Report {
        let mut balance = 0;
        for (m, module) in hall.modules.iter().enumerate() {
            balance += u8::from(module.out_of_balance) << m;
            balance += u8::from(module.oxidizer_is_lesser) << (4 + m);
        }
        Report {
            answer,
            n: hall.n,
            fail: [0, 1, 2, 3].map(|s| hall.strings[s].reported_fail_word()),
            close: [0, 1, 2, 3].map(|s| hall.strings[s].close_byte()),
            balance,
            lesser: hall.modules.map(|module| module.lesser),
            difference: hall.modules.map(|module| module.difference),
        }
    }

    pub fn bytes(&self) -> [u8; REPORT_LENGTH] {
        let mut bytes = vec![0x52, 0x52, self.answer];
        bytes.extend(self.n.to_be_bytes());
        for s in 0..4 {
            bytes.extend(self.fail[s].to_be_bytes());
            bytes.push(self.close[s]);
        }
        bytes.push(self.balance);
        for quantity in self.lesser {
            bytes.extend(quantity.to_be_bytes());
        }
        for difference in self.difference {
            bytes.extend(difference.to_be_bytes());
        }
        bytes.try_into().expect("a report has 40 bytes")
    }

    /// Reads the first 40 bytes back, for tests and messages.
    pub fn read(bytes: &[u8]) -> Report {
        let word = |at: usize| u32::from_be_bytes(bytes[at..at + 4].try_into().unwrap());
        let quantity = |at: usize| u16::from_be_bytes(bytes[at..at + 2].try_into().unwrap());
        let difference = |at: usize| i16::from_be_bytes(bytes[at..at + 2].try_into().unwrap());
        Report {
            answer: bytes[2],
            n: word(3),
            fail: [7, 12, 17, 22].map(word),
            close: [11, 16, 21, 26].map(|at| bytes[at]),
            balance: bytes[27],
            lesser: [28, 30, 32].map(quantity),
            difference: [34, 36, 38].map(difference),
        }
    }
}
