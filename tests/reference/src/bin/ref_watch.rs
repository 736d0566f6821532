//! The program of document 01 over the reference: masks and a feed in, reports out.

use reference::feed::{masks_from, settle_piece, MASKS_LENGTH};
use reference::hall::TAKEN;
use reference::Monitor;
use std::io::{stdin, stdout, BufRead, ErrorKind, Read, Write};

fn main() {
    let mut input = stdin().lock();
    let mut masks = [0; MASKS_LENGTH];
    if input.read_exact(&mut masks).is_err() {
        return;
    }
    let (answer, mut monitor) = Monitor::start(masks_from(&masks));
    if answer != TAKEN {
        return;
    }
    // Only what the input has ready is read, and its reports are out before the next read:
    // a close order must not stand behind bytes that have not arrived.
    loop {
        let piece = match input.fill_buf() {
            Err(error) if error.kind() == ErrorKind::Interrupted => continue,
            Err(_) | Ok([]) => return,
            Ok(ready) => ready.to_vec(),
        };
        input.consume(piece.len());
        let mut reports = Vec::new();
        settle_piece(&mut monitor, &piece, &mut reports);
        let mut output = stdout().lock();
        if output.write_all(&reports).and_then(|()| output.flush()).is_err() {
            return;
        }
    }
}
