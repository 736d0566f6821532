//! `damaged SEED SHARE`: writes what `compare` gives the programs for a seed, masks and then a damaged feed, where each
//! feed has SHARE bytes of all.

use reference::generate::{input, size};
use std::io::{stdout, Write};
use std::process::ExitCode;

fn main() -> ExitCode {
    let mut numbers = std::env::args().skip(1).map(|number| number.parse());
    let (Some(Ok(seed)), Some(Ok(share)), None) = (numbers.next(), numbers.next(), numbers.next()) else {
        eprintln!("usage: damaged SEED SHARE");
        return ExitCode::FAILURE;
    };
    let (bytes, _) = input(seed as u64, size(seed as u64, share));
    match stdout().write_all(&bytes) {
        Ok(()) => ExitCode::SUCCESS,
        Err(_) => ExitCode::FAILURE,
    }
}
