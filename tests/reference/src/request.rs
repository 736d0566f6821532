//! Requests to a program that writes records, and what it says to them.
//!
//! A request has its kind (1; 0 is a minor record, 1 a major), the outbox's length (2, at most
//! 1,024), the byte that fills the outbox beforehand (1), and the record's values as they stand
//! between mark and sum (55 or 615). An input is any number of requests, one after the other. The
//! program says for each the writer's answer (1) and the whole outbox. Numbers have the high byte
//! first. The program stops silently at the end of its input, at a request that is incomplete, at
//! another kind, or at an outbox longer than 1,024.

use crate::record::{Record, MAJOR_LENGTH, MINOR_LENGTH};
use crate::writer::write;

pub const MINOR_KIND: u8 = 0;
pub const MAJOR_KIND: u8 = 1;
pub const LONGEST_OUTBOX: usize = 1_024;

#[derive(Clone, Debug, PartialEq, Eq)]
pub struct Request {
    pub record: Record,
    pub outbox_length: usize,
    pub fill: u8,
}

impl Request {
    pub fn is_major(&self) -> bool {
        self.record.major.is_some()
    }

    pub fn record_length(&self) -> usize {
        if self.is_major() {
            MAJOR_LENGTH
        } else {
            MINOR_LENGTH
        }
    }

    pub fn bytes(&self) -> Vec<u8> {
        let mut bytes = vec![if self.is_major() { MAJOR_KIND } else { MINOR_KIND }];
        bytes.extend((self.outbox_length as u16).to_be_bytes());
        bytes.push(self.fill);
        bytes.extend(self.record.values());
        bytes
    }

    /// The writer's answer, then the outbox.
    pub fn said(&self) -> Vec<u8> {
        let mut outbox = vec![self.fill; self.outbox_length];
        let answer = write(&self.record, &mut outbox);
        [vec![answer], outbox].concat()
    }
}

/// What the program says to an input, request by request.
pub fn play(mut input: &[u8]) -> Vec<Vec<u8>> {
    let mut said = Vec::new();
    while let Some(request) = next(&mut input) {
        said.push(request.said());
    }
    said
}

fn next(rest: &mut &[u8]) -> Option<Request> {
    let ([kind, high, low, fill], after) = rest.split_first_chunk()?;
    let outbox_length = usize::from(u16::from_be_bytes([*high, *low]));
    if outbox_length > LONGEST_OUTBOX {
        return None;
    }
    let length = match *kind {
        MINOR_KIND => MINOR_LENGTH,
        MAJOR_KIND => MAJOR_LENGTH,
        _ => return None,
    };
    // Mark and sum are not sent.
    let (values, after) = after.split_at_checked(length - 4)?;
    *rest = after;
    let record = Record::of_values(*kind == MAJOR_KIND, values);
    Some(Request { record, outbox_length, fill: *fill })
}
