//! The cases that the lengths of outboxes have to meet, and how often they did.

use crate::cases::{only, Cases, Named};
use crate::hall::{Hall, OUTBOX_SHORT, TAKEN};
use crate::record::Record;
use crate::report::REPORT_LENGTH;
use std::fmt;

const ONE_SHORT: usize = REPORT_LENGTH - 1;
/// A report without the three differences.
const WITHOUT_DIFFERENCES: usize = REPORT_LENGTH - 3 * 2;

const CASES: [Named<Lent>; 4] = [
    ("39 bytes, answer 5: a record would be taken, refused, none would settle", 3, |lent| {
        lent.by_record(lent.length == ONE_SHORT)
    }),
    ("fewer, answer 5: none, 1 to 33, 34 to 38", 3, |lent| match lent.length {
        0 => vec![0],
        1..WITHOUT_DIFFERENCES => vec![1],
        WITHOUT_DIFFERENCES..ONE_SHORT => vec![2],
        _ => vec![],
    }),
    ("40 bytes: a record taken, refused, nothing settled", 3, |lent| {
        lent.by_record(lent.length == REPORT_LENGTH)
    }),
    ("more, those after the 40th kept: a record taken, refused, nothing settled", 3, |lent| {
        lent.by_record(lent.length > REPORT_LENGTH)
    }),
];

#[derive(Clone, Debug)]
pub struct OutboxCases(Cases<Lent>);

/// An outbox of a call, and the answer that the call's record gets, or would get with a longer one.
#[derive(Clone, Debug)]
struct Lent {
    length: usize,
    settles: Option<u8>,
}

impl Default for OutboxCases {
    fn default() -> OutboxCases {
        OutboxCases(Cases::of(CASES))
    }
}

impl OutboxCases {
    /// The outbox's length, the call's answer, the hall before it, and the record that it settled, or would settle
    /// with a longer outbox.
    pub fn add(&mut self, length: usize, answer: u8, before: &Hall, settled: Option<&Record>) {
        let settles = settled.map(|record| match answer {
            OUTBOX_SHORT => before.clone().settle(record),
            answer => answer,
        });
        self.0.add(&Lent { length, settles });
    }

    /// Demands that every variant of every case was met that often.
    pub fn each_met(&self, least: u64) -> Result<(), String> {
        self.0.each_met(least)
    }
}

impl Lent {
    fn by_record(&self, has_length: bool) -> Vec<usize> {
        let variant = match self.settles {
            Some(TAKEN) => 0,
            Some(_) => 1,
            None => 2,
        };
        only(has_length, variant)
    }
}

impl fmt::Display for OutboxCases {
    fn fmt(&self, lines: &mut fmt::Formatter) -> fmt::Result {
        self.0.fmt(lines)
    }
}
