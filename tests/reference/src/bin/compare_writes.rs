//! `compare_writes WRITES WATCH.. [--requests N]`: runs a program that writes records over seeded
//! requests and demands every byte of its output to be the reference's. Then records that it
//! writes are fed to each monitor, whose reports must be those that their values bring.

use reference::dispatch::Dispatch;
use reference::feed::masks_bytes;
use reference::process::{cut, run_file, run_pieces};
use reference::random::Random;
use reference::request::{play, Request};
use reference::request_cases::Cases;
use reference::request_input::{broken_inputs, request};
use reference::score::{Program, Score};
use reference::tally::Tally;
use reference::writer::WRITTEN;
use std::process::ExitCode;
use std::time::{Duration, Instant};

const LIMIT: Duration = Duration::from_secs(30);
const REQUESTS: u64 = 40_000;
/// By turns: a program may go wrong only on its first request, or only after many.
const REQUESTS_AT_ONCE: [u64; 4] = [1, 30, 600, 9_000];
/// How often each case must be met.
const LEAST_MET: u64 = 25;
const NIGHTS: u64 = 60;
const RECORDS_OF_A_NIGHT: usize = 500;

fn main() -> ExitCode {
    let arguments: Vec<String> = std::env::args().skip(1).collect();
    let arguments: Vec<&str> = arguments.iter().map(String::as_str).collect();
    let (programs, number) = match &arguments[..] {
        [programs @ .., "--requests", number] => (programs, number.parse()),
        programs => (programs, Ok(REQUESTS)),
    };
    let ([writes, watches @ ..], Ok(number), false) = (programs, number, programs.len() < 2) else {
        eprintln!("usage: compare_writes WRITES WATCH.. [--requests N]");
        return ExitCode::FAILURE;
    };
    let mut writes = Program::at(writes);
    let mut watches: Vec<Program> = watches.iter().map(|watch| Program::at(watch)).collect();
    let begin = Instant::now();
    let mut score = Score::default();
    let cases = requests(&mut writes, number, &mut score);
    let broken = stops(&mut writes, &mut score);
    let tally = nights(&writes, &mut watches, &mut score);
    let seconds = begin.elapsed().as_secs_f64();
    print!("{cases}");
    println!("{number} requests; {broken} inputs to stop in; nights: {tally:?}; {seconds:.1} s");
    watches.iter().chain([&writes]).for_each(|program| println!("{program}"));
    score.end()
}

/// Seeded requests, few or many to an input.
fn requests(writes: &mut Program, number: u64, score: &mut Score) -> Cases {
    let mut cases = Cases::default();
    let (mut begin, mut turn) = (0, 0);
    while begin < number {
        let end = number.min(begin + REQUESTS_AT_ONCE[turn % REQUESTS_AT_ONCE.len()]);
        let requests: Vec<Request> = (begin..end).map(request).collect();
        requests.iter().for_each(|request| cases.add(request));
        let said: Vec<Vec<u8>> = requests.iter().map(Request::said).collect();
        let input = requests.iter().flat_map(Request::bytes).collect();
        // The number of the request that differs counts from the first seed.
        let name = format!("requests of seeds {begin} to {end}");
        writes.check(score, &name, ("request", &said), |writes| run(writes, input, turn));
        (begin, turn) = (end, turn + 1);
    }
    score.check("cases of the requests", cases.each_met(LEAST_MET));
    cases
}

/// Inputs in which the program must stop.
fn stops(writes: &mut Program, score: &mut Score) -> usize {
    let inputs = broken_inputs();
    for (name, input) in &inputs {
        let said = play(input);
        let run = |writes: &str| run_pieces(writes, vec![input.clone()], LIMIT);
        writes.check(score, name, ("request", &said), run);
    }
    inputs.len()
}

/// Records as WRITES writes them, to each WATCH.
fn nights(writes: &Program, watches: &mut [Program], score: &mut Score) -> Tally {
    let mut tally = Tally::default();
    for seed in 0..NIGHTS {
        let mut night = Dispatch::of(seed, RECORDS_OF_A_NIGHT);
        let name = format!("written night of seed {seed}");
        let written = match written(writes.path(), &night.requests) {
            Ok(written) => written,
            Err(why) => {
                score.check(&name, Err(why));
                continue;
            }
        };
        let (feed, noisy) = night.feed(&written, [0, 3, 20][(seed % 3) as usize]);
        let reports = night.reports();
        tally.add(feed.len(), noisy, &reports);
        let input = [&masks_bytes(&night.masks)[..], &feed].concat();
        for watch in &mut *watches {
            let run = |watch: &str| run(watch, input.clone(), seed as usize / 3);
            watch.check(score, &name, ("report", &reports), run);
        }
    }
    score.check("what the nights brought", lively(&tally));
    tally
}

/// The records that the program wrote, if it refused none.
fn written(writes: &str, requests: &[Request]) -> Result<Vec<Vec<u8>>, String> {
    let input = requests.iter().flat_map(Request::bytes).collect();
    let output = run_pieces(writes, vec![input], LIMIT)?;
    let mut rest = &output[..];
    let mut written = Vec::new();
    for (number, request) in requests.iter().enumerate() {
        match rest.split_at_checked(1 + request.outbox_length) {
            Some(([WRITTEN, outbox @ ..], after)) => {
                written.push(outbox[..request.record_length()].to_vec());
                rest = after;
            }
            _ => return Err(format!("record {number} is refused or missing")),
        }
    }
    Ok(written)
}

/// Nights in which little is taken, or nothing happens, would show little.
fn lively(tally: &Tally) -> Result<(), String> {
    let refused = tally.records - tally.taken;
    let enough = tally.taken >= 9 * refused
        && tally.refused_with_7 > NIGHTS
        && tally.feeds_with_failed_jet > NIGHTS / 2
        && tally.feeds_with_close_bit > NIGHTS / 3
        && tally.drops_seen > NIGHTS / 3
        && tally.feeds_with_imbalance > NIGHTS / 2
        && tally.damaged_spots > NIGHTS;
    enough.then_some(()).ok_or("too little happens in them".into())
}

/// Whole from a pipe, in pieces, or from a file.
fn run(program: &str, input: Vec<u8>, way: usize) -> Result<Vec<u8>, String> {
    match way % 3 {
        0 => run_pieces(program, vec![input], LIMIT),
        1 => run_pieces(program, cut(&input, &mut Random(way as u64)), LIMIT),
        _ => run_file(program, &input, LIMIT),
    }
}
