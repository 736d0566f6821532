//! Two tenants on one string (document 02, order 9): what two nights have to agree on for one manifold, and what of
//! their reports then agrees. Both are read off bytes, at the places of docs/FORMATS.md.

use crate::feed::play;
use crate::hall::TAKEN;
use crate::jet::bit;
use crate::record::MAJOR;
use crate::report::REPORT_LENGTH;

/// Who has one manifold of a string.
#[derive(Clone, Copy, Debug, PartialEq, Eq)]
pub struct Tenant {
    pub string: usize,
    pub manifold: usize,
    /// The manifold's jets.
    pub mask: u32,
}

/// A record that was taken: the cycle number that it brought, and its bytes.
#[derive(Clone, Debug, PartialEq, Eq)]
pub struct Taken {
    pub n: u32,
    pub bytes: Vec<u8>,
}

/// The records of the program's input that are taken.
pub fn taken(input: &[u8]) -> Vec<Taken> {
    let mut taken = Vec::new();
    play(input, |answer, _, record, after| {
        if answer == TAKEN {
            taken.push(Taken { n: after.n, bytes: record.bytes() });
        }
    });
    taken
}

impl Tenant {
    /// The premise: the records taken have the same cycle numbers and kinds in the same order, and agree on what is
    /// the tenant's. Names the first place where they don't.
    pub fn agree(&self, one: &[Taken], other: &[Taken]) -> Result<(), String> {
        for (number, (one, other)) in one.iter().zip(other).enumerate() {
            let parts = self.parts(one).into_iter().zip(self.parts(other));
            if let Some(((place, one), (_, other))) = parts.into_iter().find(|(one, other)| one != other) {
                return Err(format!("{place}: {one:x} and {other:x}, taken record {number}"));
            }
        }
        match one.len() == other.len() {
            true => Ok(()),
            false => Err(format!("number of records taken: {} and {}", one.len(), other.len())),
        }
    }

    /// The string's path bit, the manifold's valve and drop bits, and its jets' commanded, pressure, driver,
    /// temperature and request bits, each with its name. A minor record has no drops, temperatures and requests.
    fn parts(&self, Taken { n, bytes }: &Taken) -> Vec<(&'static str, u32)> {
        let s = self.string;
        let number = |at: usize, length| {
            bytes[at..at + length].iter().fold(0, |number, byte| 256 * number + u32::from(*byte))
        };
        let its_jets = |at| number(at, 4) & self.mask;
        let its_bit = |at: usize, place: usize| u32::from(bytes[at] >> place) % 2;
        let mut parts = vec![
            ("cycle number", *n),
            ("kind", number(0, 2)),
            ("path", its_bit(4, s)),
            ("commanded", its_jets(5 + 13 * s)),
            ("pressure", its_jets(9 + 13 * s)),
            ("driver", its_jets(13 + 13 * s)),
            ("valve", its_bit(17 + 13 * s, self.manifold)),
        ];
        if bytes[1] == MAJOR {
            for jet in (0..32).filter(|jet| bit(self.mask, *jet)) {
                parts.push(("fuel temperature", number(57 + 128 * s + 4 * jet, 2)));
                parts.push(("oxidizer temperature", number(59 + 128 * s + 4 * jet, 2)));
            }
            parts.push(("inhibit", its_jets(569 + 8 * s)));
            parts.push(("re-enable", its_jets(573 + 8 * s)));
            parts.push(("drop", its_bit(601 + s, self.manifold)));
        }
        parts
    }

    /// What a report shows of the manifold: its fail bits and its close bit.
    pub fn sees(&self, report: &[u8]) -> (u32, bool) {
        let part = &report[7 + 5 * self.string..][..5];
        let fail = u32::from_be_bytes([part[0], part[1], part[2], part[3]]);
        (fail & self.mask, bit(part[4].into(), self.manifold))
    }

    /// The claim: any report of the one and any of the other with equally many records taken up to it, itself
    /// included, show the same of the manifold. Gives how many such two there are.
    pub fn sees_the_same(&self, one: &[u8], other: &[u8]) -> Result<u64, String> {
        let mut compared = 0;
        for (taken, (ones, others)) in by_taken(one).iter().zip(by_taken(other)).enumerate() {
            for (number, report) in ones {
                for (other_number, other_report) in &others {
                    let (one, other) = (self.sees(report), self.sees(other_report));
                    if one != other {
                        return Err(format!(
                            "report {number} of the first night and {other_number} of the second, {taken} taken: \
                             fail bits {:08x} and {:08x}, close bit {} and {}",
                            one.0, other.0, one.1, other.1
                        ));
                    }
                    compared += 1;
                }
            }
        }
        Ok(compared)
    }
}

/// The reports, each with its number, by how many records are taken up to them.
fn by_taken(reports: &[u8]) -> Vec<Vec<(usize, &[u8])>> {
    let mut by_taken = vec![Vec::new()];
    for (number, report) in reports.chunks_exact(REPORT_LENGTH).enumerate() {
        if report[2] == TAKEN {
            by_taken.push(Vec::new());
        }
        by_taken.last_mut().expect("one is there from the start").push((number, report));
    }
    by_taken
}
