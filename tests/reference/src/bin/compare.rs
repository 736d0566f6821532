//! `compare WATCH CALLS [--also WATCH].. [--feeds N] [--bytes TOTAL] [--halls N]`: runs programs over seeded
//! input and demands every byte of their output to be the reference's. All of WATCH run over the same input.

use reference::counted::Counted;
use reference::feed::{masks_bytes, run, MASKS_LENGTH};
use reference::foreign;
use reference::foreign_cases::ForeignCases;
use reference::generate::{input, size};
use reference::hall::{BOTH_WAYS, NOTHING_SETTLED};
use reference::maps::{each_shared_jet, refused_masks};
use reference::old_input::old_input;
use reference::process::{cut, run_file, run_pieces};
use reference::random::Random;
use reference::report::REPORT_LENGTH;
use reference::score::{Program, Score};
use reference::script;
use reference::slips;
use reference::tally::Tally;
use std::process::ExitCode;
use std::time::{Duration, Instant};

const LIMIT: Duration = Duration::from_secs(30);
const FEEDS: u64 = 320;
const BYTES: u64 = 20_000_000;
const CALM_FEEDS: u64 = 60;
const CALM_BYTES: usize = 60_000;
const HALLS: u64 = 20_000;
const CALL_INPUTS: u64 = 500;
const NOISES: u64 = 24;
const HALLS_AT_ONCE: u64 = 250;
/// How often each counted case must be met, in the feeds and in the halls, unless fewer are asked for.
const LEAST_MET: u64 = 25;

fn main() -> ExitCode {
    let Some(mut asked) = Asked::read(std::env::args().skip(1)) else {
        eprintln!("usage: compare WATCH CALLS [--also WATCH].. [--feeds N] [--bytes TOTAL] [--halls N]");
        return ExitCode::FAILURE;
    };
    let (watches, calls) = (&mut asked.watches, &mut asked.calls);
    let begin = Instant::now();
    let mut score = Score::default();
    let (tally, of_feeds) = feeds(watches, asked.feeds, asked.bytes, &mut score);
    let calm = calm_feeds(watches, &mut score);
    let bad_inputs = bad_inputs(watches, &mut score);
    let answers = scripts(calls, &mut score);
    let (cases, of_halls) = foreign_halls(calls, asked.halls, &mut score);
    let seconds = begin.elapsed().as_secs_f64();
    print!("FEEDS\n{of_feeds}HALLS\n{of_halls}");
    println!("{tally:?}; calm nights: {calm:?}; {bad_inputs} inputs of noise or bad masks; {answers}; {cases:?}; {seconds:.1} s");
    watches.iter().chain([&*calls]).for_each(|program| println!("{program}"));
    score.end()
}

/// The programs, how many feeds, how many bytes of them in all, and how many foreign halls.
struct Asked {
    watches: Vec<Program>,
    calls: Program,
    feeds: u64,
    bytes: u64,
    halls: u64,
}

impl Asked {
    fn read(mut arguments: impl Iterator<Item = String>) -> Option<Asked> {
        let watches = vec![Program::at(&arguments.next()?)];
        let calls = Program::at(&arguments.next()?);
        let mut asked = Asked { watches, calls, feeds: FEEDS, bytes: BYTES, halls: HALLS };
        while let Some(name) = arguments.next() {
            let value = arguments.next()?;
            match name.as_str() {
                "--also" => asked.watches.push(Program::at(&value)),
                "--feeds" => asked.feeds = value.parse().ok()?,
                "--bytes" => asked.bytes = value.parse().ok()?,
                "--halls" => asked.halls = value.parse().ok()?,
                _ => return None,
            }
        }
        (asked.feeds > 0).then_some(asked)
    }
}

/// A night whole from a file or a pipe, every third also in pieces.
fn night(
    watches: &mut [Program],
    name: &str,
    number: u64,
    bytes: &[u8],
    reports: &[Vec<u8>],
    score: &mut Score,
) {
    for watch in &mut *watches {
        if number % 3 == 0 {
            let pieces = cut(bytes, &mut Random(!number));
            let run = |watch: &str| run_pieces(watch, pieces, LIMIT);
            watch.check(score, &format!("{name}, in pieces"), ("report", reports), run);
        }
        let run = |watch: &str| match number % 2 {
            0 => run_file(watch, bytes, LIMIT),
            _ => run_pieces(watch, vec![bytes.to_vec()], LIMIT),
        };
        watch.check(score, &format!("{name}, whole"), ("report", reports), run);
    }
}

/// Calm nights, in which most records find nothing.
fn calm_feeds(watches: &mut [Program], score: &mut Score) -> Tally {
    let mut tally = Tally::default();
    for number in 0..CALM_FEEDS {
        let (bytes, damaged) = slips::input(number, CALM_BYTES);
        let reports = reports(&bytes);
        tally.add(bytes.len(), damaged, &reports);
        night(watches, &format!("calm feed {number}"), number, &bytes, &reports, score);
    }
    tally
}

/// Seeded lively nights.
fn feeds(watches: &mut [Program], number: u64, total: u64, score: &mut Score) -> (Tally, Counted) {
    let (mut tally, mut counted) = (Tally::default(), Counted::of_feeds());
    let share = (total / number) as usize + 1;
    for seed in 0..number {
        let size = size(seed, share);
        let (bytes, damaged) = input(seed, size);
        let reports = reports(&bytes);
        tally.add(bytes.len(), damaged, &reports);
        counted.add_feed(&bytes);
        night(watches, &format!("feed of seed {seed}, size {size}"), seed, &bytes, &reports, score);
    }
    if number >= FEEDS && total >= BYTES {
        score.check("cases of the feeds", counted.each_met(LEAST_MET));
    }
    (tally, counted)
}

/// Noise, empty input, short and refused masks, and maps of 64 bytes.
fn bad_inputs(watches: &mut [Program], score: &mut Score) -> usize {
    let mut inputs: Vec<(String, Vec<u8>)> = Vec::new();
    for length in [0, 1, 2, 16, 63, 64, 65, MASKS_LENGTH - 1, MASKS_LENGTH] {
        inputs.push((format!("{length} bytes of masks"), vec![0; length]));
    }
    let (feed, _) = input(0, 600);
    for (number, masks) in each_shared_jet().iter().enumerate() {
        let refused = [&masks_bytes(masks)[..], &feed[MASKS_LENGTH..]].concat();
        inputs.push((format!("a jet on two manifolds, pair {number}"), refused));
    }
    for seed in 0..NOISES {
        let mut random = Random(1_000_000 + seed);
        let length = random.index(40_000);
        inputs.push((format!("noise of seed {seed}"), random.bytes(length)));
        let junk = [vec![0; MASKS_LENGTH], random.junk(length)].concat();
        inputs.push((format!("junk of seed {seed}"), junk));
        let (mut refused, _) = input(seed, 3_000);
        refused[..MASKS_LENGTH].copy_from_slice(&masks_bytes(&refused_masks(&mut random)));
        inputs.push((format!("refused masks of seed {seed}"), refused));
        for is_accepted in [true, false] {
            let name = format!("map of 64 bytes, accepted {is_accepted}, of seed {seed}");
            inputs.push((name, old_input(seed, is_accepted)));
        }
    }
    for (name, input) in &inputs {
        let reports = reports(input);
        for watch in &mut *watches {
            let run = |watch: &str| run_pieces(watch, vec![input.clone()], LIMIT);
            watch.check(score, name, ("report", &reports), run);
        }
    }
    inputs.len()
}

/// Single calls. Gives their number, by what they answered.
fn scripts(calls: &mut Program, score: &mut Score) -> String {
    let mut answers = [0; 256];
    let mut starts = 0;
    for seed in 0..CALL_INPUTS {
        let input = script::input(seed);
        let said = script::play(&input);
        for words in &said {
            match words[..] {
                [_] => starts += 1,
                _ => answers[usize::from(words[0])] += 1,
            }
        }
        plays(calls, score, &format!("calls of seed {seed}"), input);
    }
    plays(calls, score, "starts over a jet on two manifolds", script::starts(&each_shared_jet()));
    let all: u64 = answers.iter().sum();
    format!(
        "{CALL_INPUTS} inputs of {starts} scripts, {all} calls, answers 0 to 5 {:?}, 7 {}, \
         nothing settled {}",
        &answers[..6],
        answers[usize::from(BOTH_WAYS)],
        answers[usize::from(NOTHING_SETTLED)]
    )
}

/// Halls that no run reaches, many to an input. Where one differs, its input is tried hall by hall, to
/// name it.
fn foreign_halls(calls: &mut Program, number: u64, score: &mut Score) -> (ForeignCases, Counted) {
    let (mut cases, mut counted) = (ForeignCases::default(), Counted::of_halls());
    let mut begin = 0;
    while begin < number {
        let end = number.min(begin + HALLS_AT_ONCE);
        let script = |seed| foreign::script(seed, &mut cases, &mut counted);
        let scripts: Vec<Vec<u8>> = (begin..end).map(script).collect();
        if !plays(calls, score, &format!("halls of seeds {begin} to {end}"), scripts.concat()) {
            for (seed, script) in (begin..end).zip(scripts) {
                plays(calls, score, &format!("hall of seed {seed}"), script);
            }
        }
        begin = end;
    }
    if number >= HALLS {
        score.check("cases of the halls", counted.each_met(LEAST_MET));
    }
    (cases, counted)
}

fn plays(calls: &mut Program, score: &mut Score, name: &str, input: Vec<u8>) -> bool {
    let said = script::play(&input);
    calls.check(score, name, ("start or call", &said), |calls| run_pieces(calls, vec![input], LIMIT))
}

fn reports(input: &[u8]) -> Vec<Vec<u8>> {
    run(input).chunks(REPORT_LENGTH).map(<[u8]>::to_vec).collect()
}
