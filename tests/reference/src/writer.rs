//! The writer of feed records: the values of a record in, its bytes in a lent outbox out.

use crate::record::Record;

/// The writer's own answers, in the order of its checks; written if none of the others holds.
pub const WRITTEN: u8 = 0;
pub const RESERVED_BIT: u8 = 1;
pub const LARGE_QUANTITY: u8 = 2;
pub const SHORT_OUTBOX: u8 = 3;

/// Gives the answer. The outbox keeps its bytes behind the record, and all of them on a refusal.
pub fn write(record: &Record, outbox: &mut [u8]) -> u8 {
    if record.has_reserved_bit() {
        return RESERVED_BIT;
    }
    if record.has_large_quantity() {
        return LARGE_QUANTITY;
    }
    let bytes = record.bytes();
    if outbox.len() < bytes.len() {
        return SHORT_OUTBOX;
    }
    outbox[..bytes.len()].copy_from_slice(&bytes);
    WRITTEN
}
