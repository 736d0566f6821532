//! Named cases, and how often each of their variants was met.

use crate::jet::MANIFOLDS;
use std::fmt;

/// A case's name, the number of its variants, and which of them a thing meets.
pub type Named<Thing> = (&'static str, usize, fn(&Thing) -> Vec<usize>);

/// A case, with a count for each of its variants.
#[derive(Clone, Debug)]
struct Case<Thing> {
    name: &'static str,
    met: Vec<u64>,
    variants: fn(&Thing) -> Vec<usize>,
}

#[derive(Clone, Debug)]
pub struct Cases<Thing>(Vec<Case<Thing>>);

impl<Thing> Cases<Thing> {
    pub fn of(cases: impl IntoIterator<Item = Named<Thing>>) -> Cases<Thing> {
        let case = |(name, number, variants)| Case { name, met: vec![0; number], variants };
        Cases(cases.into_iter().map(case).collect())
    }

    pub fn add(&mut self, thing: &Thing) {
        for case in &mut self.0 {
            for variant in (case.variants)(thing) {
                case.met[variant] += 1;
            }
        }
    }

    /// Demands that every variant of every case was met that often.
    pub fn each_met(&self, least: u64) -> Result<(), String> {
        match self.0.iter().find(|case| case.met.iter().any(|met| *met < least)) {
            None => Ok(()),
            Some(case) => Err(format!("not met {least} times: {}: {:?}", case.name, case.met)),
        }
    }
}

impl<Thing> fmt::Display for Cases<Thing> {
    fn fmt(&self, lines: &mut fmt::Formatter) -> fmt::Result {
        self.0.iter().try_for_each(|case| writeln!(lines, "{}: {:?}", case.name, case.met))
    }
}

/// Each manifold of each string, those of string 0 first.
pub const EACH_MANIFOLD: usize = 4 * MANIFOLDS;

/// Manifolds of all strings: bit i of byte s is for manifold i of string s.
pub type Manifolds = [u8; 4];

/// The numbers of these manifolds.
pub fn each(manifolds: Manifolds) -> Vec<usize> {
    let is_one = |number: &usize| (manifolds[number / MANIFOLDS] >> (number % MANIFOLDS)) % 2 == 1;
    (0..EACH_MANIFOLD).filter(is_one).collect()
}

/// A variant if it holds.
pub fn only(holds: bool, variant: usize) -> Vec<usize> {
    holds.then_some(variant).into_iter().collect()
}
