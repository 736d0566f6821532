//! A whole hall in 618 bytes, as scripts hand it in and get it back. Numbers have the high byte first.
//!
//! n (4); for each string its masks (4 each); for each string the fail word, the valves and each
//! manifold's saved set (4 each), the same of the good copy, off slots (newest, older, oldest), on slots
//! (newest, older), recheck word, inhibits, re-enables and close word (4 each), and whether a path
//! fault is remembered (1); for each module whether it is out of balance (1), whether the oxidizer
//! is the lesser (1), the lesser quantity (2), and the difference (2, two's complement). Yes is written
//! as 1 and no as 0; any byte but 0 is read as yes.

use crate::feed::{masks_from, MASKS_LENGTH};
use crate::hall::{Hall, Masks};
use crate::jet::{bit, Jet, MANIFOLDS};
use crate::jet_string::JetString;
use std::array;

/// Thirteen words of a string, and two for each of its manifolds.
pub const STRING_WORDS: usize = 13 + 2 * MANIFOLDS;
/// Two flags of a module, its lesser quantity and its difference.
const MODULE_LENGTH: usize = 1 + 1 + 2 + 2;
pub const HALL_LENGTH: usize = 4 + MASKS_LENGTH + 4 * (4 * STRING_WORDS + 1) + 3 * MODULE_LENGTH;

pub fn hall_from(bytes: &[u8; HALL_LENGTH]) -> Hall {
    let mut left = &bytes[..];
    let n = next_word(&mut left);
    let masks = masks_from(next(&mut left));
    let mut hall = Hall::fresh(&masks);
    hall.n = n;
    for string in &mut hall.strings {
        read_string(string, &mut left);
    }
    for module in &mut hall.modules {
        module.out_of_balance = next_flag(&mut left);
        module.oxidizer_is_lesser = next_flag(&mut left);
        module.lesser = u16::from_be_bytes(*next(&mut left));
        module.difference = i16::from_be_bytes(*next(&mut left));
    }
    hall
}

fn read_string(string: &mut JetString, left: &mut &[u8]) {
    read_jets(string, left, |jet| &mut jet.failed);
    string.valves = next_word(left);
    for manifold in 0..MANIFOLDS {
        read_jets(string, left, |jet| &mut jet.saved[manifold]);
    }
    read_jets(string, left, |jet| &mut jet.good_failed);
    string.good_valves = next_word(left);
    for manifold in 0..MANIFOLDS {
        read_jets(string, left, |jet| &mut jet.good_saved[manifold]);
    }
    for slot in 0..3 {
        read_jets(string, left, |jet| &mut jet.off_slots[slot]);
    }
    for slot in 0..2 {
        read_jets(string, left, |jet| &mut jet.on_slots[slot]);
    }
    read_jets(string, left, |jet| &mut jet.recheck);
    read_jets(string, left, |jet| &mut jet.inhibited);
    read_jets(string, left, |jet| &mut jet.re_enabled);
    string.close = next_word(left);
    string.path_fault = next_flag(left);
}

/// A word that says yes or no of each jet.
fn read_jets(string: &mut JetString, left: &mut &[u8], place: impl Fn(&mut Jet) -> &mut bool) {
    let word = next_word(left);
    for jet in &mut string.jets {
        let number = jet.number;
        *place(jet) = bit(word, number);
    }
}

fn next<'a, const LENGTH: usize>(left: &mut &'a [u8]) -> &'a [u8; LENGTH] {
    let (front, rest) = left.split_first_chunk().expect("a hall's bytes");
    *left = rest;
    front
}

fn next_word(left: &mut &[u8]) -> u32 {
    u32::from_be_bytes(*next(left))
}

fn next_flag(left: &mut &[u8]) -> bool {
    next::<1>(left) != &[0]
}

pub fn hall_bytes(hall: &Hall) -> [u8; HALL_LENGTH] {
    let mut bytes = hall.n.to_be_bytes().to_vec();
    for mask in masks_of(hall).iter().flatten() {
        bytes.extend(mask.to_be_bytes());
    }
    for string in &hall.strings {
        for word in string_words(string) {
            bytes.extend(word.to_be_bytes());
        }
        bytes.push(string.path_fault.into());
    }
    for module in &hall.modules {
        bytes.push(module.out_of_balance.into());
        bytes.push(module.oxidizer_is_lesser.into());
        bytes.extend(module.lesser.to_be_bytes());
        bytes.extend(module.difference.to_be_bytes());
    }
    bytes.try_into().expect("a hall's bytes")
}

pub fn masks_of(hall: &Hall) -> Masks {
    let mask = |s: usize, manifold: usize| hall.strings[s].word(|jet| jet.manifolds[manifold]);
    [0, 1, 2, 3].map(|s| array::from_fn(|manifold| mask(s, manifold)))
}

fn string_words(string: &JetString) -> Vec<u32> {
    let mut words = vec![string.word(|jet| jet.failed), string.valves];
    words.extend((0..MANIFOLDS).map(|manifold| string.word(|jet| jet.saved[manifold])));
    words.extend([string.word(|jet| jet.good_failed), string.good_valves]);
    words.extend((0..MANIFOLDS).map(|manifold| string.word(|jet| jet.good_saved[manifold])));
    words.extend((0..3).map(|slot| string.word(|jet| jet.off_slots[slot])));
    words.extend((0..2).map(|slot| string.word(|jet| jet.on_slots[slot])));
    words.push(string.word(|jet| jet.recheck));
    words.push(string.word(|jet| jet.inhibited));
    words.push(string.word(|jet| jet.re_enabled));
    words.push(string.close);
    words
}
