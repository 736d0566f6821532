//! The night monitor as an ordinary optimised program, to measure `watch` against: masks and a
//! feed from standard input, the reports to standard output. Nothing of it is proved.

mod hall;
mod leaks;
mod record;

use hall::{Hall, Report, MASKS_LENGTH, REPORT_LENGTH};
use record::{look, Look, MAJOR_LENGTH, MINOR_LENGTH};
use std::fs::File;
use std::io::{self, stdin, stdout, ErrorKind, Read, Write};
use std::os::fd::AsFd;

/// The most that is read at once.
const READ_LENGTH: usize = 65_536;
/// With room for what waits for more bytes.
const BUFFER_LENGTH: usize = READ_LENGTH + MAJOR_LENGTH;
/// The buffer has no more records than this.
const MOST_RECORDS: usize = BUFFER_LENGTH / MINOR_LENGTH;

fn main() -> io::Result<()> {
    // The bare files: the library's own buffers would only copy.
    let mut input = File::from(stdin().as_fd().try_clone_to_owned()?);
    let mut output = File::from(stdout().as_fd().try_clone_to_owned()?);
    let mut buffer = vec![0; BUFFER_LENGTH];
    let mut filled = 0;
    while filled < MASKS_LENGTH {
        match read_ready(&mut input, &mut buffer[filled..][..READ_LENGTH]) {
            0 => return Ok(()),
            got => filled += got,
        }
    }
    let Some(mut hall) = Hall::over(&buffer[..MASKS_LENGTH]) else {
        return Ok(());
    };
    let mut from = MASKS_LENGTH;
    let mut reports = vec![[0; REPORT_LENGTH]; MOST_RECORDS];
    loop {
        let (rest, told) = settle_all(&mut hall, &buffer[from..filled], &mut reports);
        output.write_all(reports[..told].as_flattened())?;
        // What waits for more bytes moves to the front, so that every record lies whole.
        if rest < filled {
            buffer.copy_within(filled - rest..filled, 0);
        }
        from = 0;
        filled = rest;
        match read_ready(&mut input, &mut buffer[filled..][..READ_LENGTH]) {
            0 => return Ok(()),
            got => filled += got,
        }
    }
}

/// What the input has ready; 0 where it has ended or fails.
fn read_ready(input: &mut File, buffer: &mut [u8]) -> usize {
    loop {
        match input.read(buffer) {
            Ok(got) => return got,
            Err(error) if error.kind() == ErrorKind::Interrupted => {}
            Err(_) => return 0,
        }
    }
}

/// Settles every record of the feed. How many bytes at its end must wait for more, and how many reports there are.
fn settle_all(hall: &mut Hall, mut feed: &[u8], reports: &mut [Report]) -> (usize, usize) {
    let mut told = 0;
    loop {
        feed = match look(feed) {
            Look::Drops(rest) => rest,
            Look::Waits => return (feed.len(), told),
            Look::Minor(record, rest) => {
                hall.settle_minor(record, &mut reports[told]);
                told += 1;
                rest
            }
            Look::Major(record, rest) => {
                hall.settle_major(record, &mut reports[told]);
                told += 1;
                rest
            }
        };
    }
}
