//! `many_reads WATCH [READS]`: a run of more than a million reads. A packet holds one byte, and a
//! read takes no more than a packet, so the program reads once for each byte that is sent; each
//! report must be the reference's, and none may be missing at the end.

use reference::feed::run;
use reference::generate::input;
use reference::process::Running;
use reference::score::{same, Score};
use std::os::fd::OwnedFd;
use std::os::unix::net::UnixDatagram;
use std::process::{ExitCode, Stdio};
use std::thread;
use std::time::Duration;

/// Some more than a million, as a loop that counts them to a million would end there.
const READS: usize = 1_100_000;
const LIMIT: Duration = Duration::from_secs(120);
/// With this seed the masks are accepted, and records are reported up to the end.
const SEED: u64 = 96;

fn main() -> ExitCode {
    let mut arguments = std::env::args().skip(1);
    let watch = arguments.next();
    let reads = arguments.next().map_or(Ok(READS), |number| number.parse());
    let (Some(watch), Ok(reads), None) = (&watch, reads, arguments.next()) else {
        eprintln!("usage: many_reads WATCH [READS]");
        return ExitCode::FAILURE;
    };
    let mut score = Score::default();
    score.check("many reads in one run", byte_by_byte(watch, reads));
    score.end()
}

fn byte_by_byte(watch: &str, reads: usize) -> Result<(), String> {
    let (bytes, _) = input(SEED, reads);
    let reports = run(&bytes);
    let early = run(&bytes[..bytes.len() - bytes.len() / 20]);
    if early.len() == reports.len() {
        return Err("nothing is reported in the last reads".into());
    }
    let (ours, its) = UnixDatagram::pair().map_err(|error| format!("no packets: {error}"))?;
    let mut running = Running::start(watch, Stdio::from(OwnedFd::from(its)), true)?;
    let sender = thread::spawn(move || {
        for (number, byte) in bytes.iter().enumerate() {
            let sent = ours.send(std::slice::from_ref(byte));
            sent.map_err(|error| format!("it has ended after {number} reads: {error}"))?;
        }
        // An empty packet is read as the end of the input.
        ours.send(&[]).map_err(|error| format!("it has ended: {error}"))?;
        Ok::<usize, String>(bytes.len())
    });
    let output = running.finish(LIMIT);
    drop(running);
    let sent = sender.join().map_err(|_| "the sending thread broke off")??;
    println!("many reads: {sent} reads of one byte, {} bytes of reports", reports.len());
    same(output, "output", &[reports])
}
