//! The cases of states handed in that claim about as many held bytes as the reader holds, or more; and how often
//! they were met.

use crate::cases::{only, Cases, Named};
use crate::hall::OUTBOX_SHORT;
use crate::monitor::{Monitor, MOST_HELD};
use crate::reader::look;
use crate::report::REPORT_LENGTH;
use std::fmt;

const CASES: [Named<Claim>; 3] = [
    ("a claim of 615, 616, 617, 618, held, and to hold none would show", 4, |claim| {
        claim.one_of(&[615, 616, 617, 618], claim.is_told)
    }),
    ("a claim of 619, 620, 65,535, holding none, and a whole record in the store would show", 3, |claim| {
        claim.one_of(&[619, 620, 65_535], claim.is_told)
    }),
    ("a claim of 618, 619, given back with answer 5", 2, |claim| {
        claim.one_of(&[618, 619], claim.is_given_back)
    }),
];

#[derive(Clone, Debug)]
pub struct ClaimCases(Cases<Claim>);

/// A claim, and the first call of the state that makes it.
#[derive(Clone, Debug)]
struct Claim {
    claim: u16,
    /// Had the monitor read the claim the other way, the call would have shown it.
    is_told: bool,
    is_given_back: bool,
}

impl Default for ClaimCases {
    fn default() -> ClaimCases {
        ClaimCases(Cases::of(CASES))
    }
}

impl ClaimCases {
    /// A state that is handed in, the piece of its first call, what the call says, and the state after it.
    pub fn add(&mut self, before: &Monitor, piece: &[u8], (answer, used): (u8, usize), after: &Monitor) {
        let claim = before.held;
        let is_told = if answer == OUTBOX_SHORT {
            false
        } else if usize::from(claim) > MOST_HELD {
            look(&mut before.store.to_vec()).is_some()
        } else {
            let mut holding_none = Monitor { held: 0, ..before.clone() };
            let said = holding_none.call(piece, &mut [0; REPORT_LENGTH]);
            (said, &holding_none) != ((answer, used), after)
        };
        self.0.add(&Claim { claim, is_told, is_given_back: answer == OUTBOX_SHORT });
    }

    /// Demands that every variant of every case was met that often.
    pub fn each_met(&self, least: u64) -> Result<(), String> {
        self.0.each_met(least)
    }
}

impl Claim {
    fn one_of(&self, claims: &[u16], holds: bool) -> Vec<usize> {
        let place = claims.iter().position(|claim| *claim == self.claim);
        place.into_iter().flat_map(|place| only(holds, place)).collect()
    }
}

impl fmt::Display for ClaimCases {
    fn fmt(&self, lines: &mut fmt::Formatter) -> fmt::Result {
        self.0.fmt(lines)
    }
}
