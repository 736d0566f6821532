//! Answers requests with the reference's writer.

use reference::request::play;
use std::io::{stdin, stdout, Read, Write};

fn main() {
    let mut input = Vec::new();
    if stdin().read_to_end(&mut input).is_ok() {
        let _ = stdout().write_all(&play(&input).concat());
    }
}
