//! The monitor as its callers see it: a start over a map, then call after call.

use crate::hall::{overlap, Hall, Masks, EMPTY_MAP, MAP, NOTHING_SETTLED, OUTBOX_SHORT, TAKEN};
use crate::reader::look;
use crate::report::{Report, REPORT_LENGTH};

pub const STORE_LENGTH: usize = 619;
pub const MOST_HELD: usize = 618;

#[derive(Clone, Debug, PartialEq, Eq)]
pub struct Monitor {
    pub hall: Hall,
    /// A claim: a state that is handed in may have any.
    pub held: u16,
    pub store: [u8; STORE_LENGTH],
}

impl Monitor {
    /// Answer 0 and a fresh monitor, or 6 and a fresh one over the empty map.
    pub fn start(masks: Masks) -> (u8, Monitor) {
        let refused = overlap(&masks);
        let hall = Hall::fresh(if refused { &EMPTY_MAP } else { &masks });
        (if refused { MAP } else { TAKEN }, Monitor { hall, held: 0, store: [0; STORE_LENGTH] })
    }

    /// Puts in any count, claim and store, as a caller may hand them in.
    pub fn hand_in(&mut self, n: u32, held: u16, store: [u8; STORE_LENGTH]) {
        self.hall.n = n;
        self.held = held;
        self.store = store;
    }

    /// Gives the answer, or 255 if nothing was settled, and how many bytes of the piece were used.
    pub fn call(&mut self, piece: &[u8], outbox: &mut [u8]) -> (u8, usize) {
        if outbox.len() < REPORT_LENGTH {
            return (OUTBOX_SHORT, 0);
        }
        let mut held = self.take_held();
        let mut used = 0;
        let mut settled = look(&mut held);
        while settled.is_none() && used < piece.len() {
            held.push(piece[used]);
            used += 1;
            settled = look(&mut held);
        }
        self.keep(&held);
        let Some(record) = settled else {
            return (NOTHING_SETTLED, used);
        };
        let answer = self.hall.settle(&record);
        outbox[..REPORT_LENGTH].copy_from_slice(&Report::of(answer, &self.hall).bytes());
        (answer, used)
    }

    /// A claim of more than 618 bytes is read as holding none.
    pub fn take_held(&self) -> Vec<u8> {
        let held = usize::from(self.held);
        self.store[..if held > MOST_HELD { 0 } else { held }].to_vec()
    }

    /// The places of the store after the held bytes are 0.
    fn keep(&mut self, held: &[u8]) {
        assert!(held.len() <= MOST_HELD);
        self.held = held.len() as u16;
        self.store = [0; STORE_LENGTH];
        self.store[..held.len()].copy_from_slice(held);
    }
}
