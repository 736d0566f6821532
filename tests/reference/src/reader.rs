//! The feed reader: finds the next whole record in the bytes held, oldest first.

use crate::record::{Record, MAJOR, MAJOR_LENGTH, MARK, MINOR, MINOR_LENGTH};

/// Drops what can't be part of a record until one is settled and removed, or until more
/// bytes are needed. Bytes behind a settled record are not looked at.
pub fn look(held: &mut Vec<u8>) -> Option<Record> {
    look_and_tell(held, |_| {})
}

/// The same, and tells of each full record that loses its first byte.
pub fn look_and_tell(held: &mut Vec<u8>, mut lost: impl FnMut(&[u8])) -> Option<Record> {
    loop {
        let length = match held[..] {
            [] | [MARK] => return None,
            [MARK, MINOR, ..] => MINOR_LENGTH,
            [MARK, MAJOR, ..] => MAJOR_LENGTH,
            _ => {
                held.remove(0);
                continue;
            }
        };
        if held.len() < length {
            return None;
        }
        match Record::read(&held[..length]) {
            Some(record) => {
                held.drain(..length);
                return Some(record);
            }
            None => {
                lost(&held[..length]);
                held.remove(0);
            }
        }
    }
}
