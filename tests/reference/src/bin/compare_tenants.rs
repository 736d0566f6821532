//! `compare_tenants WATCH [--also WATCH].. [--pairs N]`: runs programs over pairs of nights that agree on what is one
//! tenant's, and demands that each shows it the same in both, besides that every byte is the reference's.

use reference::feed::run;
use reference::process::{cut, run_file, run_pieces};
use reference::random::Random;
use reference::report::REPORT_LENGTH;
use reference::score::{same, Score};
use reference::tenant::taken;
use reference::tenant_cases::TenantCases;
use reference::tenants::{pair, Pair};
use std::process::ExitCode;
use std::time::{Duration, Instant};

const LIMIT: Duration = Duration::from_secs(30);
const PAIRS: u64 = 400;
/// How often each counted case must be met, unless fewer pairs are asked for.
const LEAST_MET: u64 = 25;

fn main() -> ExitCode {
    let Some((watches, pairs)) = asked(std::env::args().skip(1)) else {
        eprintln!("usage: compare_tenants WATCH [--also WATCH].. [--pairs N]");
        return ExitCode::FAILURE;
    };
    let begin = Instant::now();
    let (mut score, mut cases) = (Score::default(), TenantCases::default());
    let mut compared = vec![0; watches.len()];
    for seed in 0..pairs {
        let pair = pair(seed);
        let name = format!("pair of seed {seed}");
        let [one, other] = pair.inputs.each_ref().map(|input| taken(input));
        let premise = pair.tenant.agree(&one, &other);
        if premise.is_ok() {
            cases.add(&pair);
            for (watch, compared) in watches.iter().zip(&mut compared) {
                *compared += watched(watch, &name, seed, &pair, &mut score);
            }
        }
        score.check(&format!("{name}: the nights agree on what is the tenant's"), premise);
    }
    if pairs >= PAIRS {
        score.check("cases of the pairs", cases.each_met(LEAST_MET));
    }
    print!("{cases}");
    for (watch, compared) in watches.iter().zip(compared) {
        println!("{watch}: {compared} times two reports compared");
    }
    println!("{:.1} s", begin.elapsed().as_secs_f64());
    score.end()
}

/// The programs, and how many pairs.
fn asked(mut arguments: impl Iterator<Item = String>) -> Option<(Vec<String>, u64)> {
    let mut watches = vec![arguments.next()?];
    let mut pairs = PAIRS;
    while let Some(name) = arguments.next() {
        let value = arguments.next()?;
        match name.as_str() {
            "--also" => watches.push(value),
            "--pairs" => pairs = value.parse().ok()?,
            _ => return None,
        }
    }
    (pairs > 0).then_some((watches, pairs))
}

/// Both nights through one program, the first whole from a file, the second by a pipe and at times in pieces. Gives
/// how many times two reports were compared.
fn watched(watch: &str, name: &str, seed: u64, pair: &Pair, score: &mut Score) -> u64 {
    let [first, second] = &pair.inputs;
    let pieces = match seed % 4 {
        0 => cut(second, &mut Random(!seed)),
        _ => vec![second.clone()],
    };
    let said = [run_file(watch, first, LIMIT), run_pieces(watch, pieces, LIMIT)];
    for (night, (said, input)) in said.iter().zip(&pair.inputs).enumerate() {
        let wanted: Vec<Vec<u8>> = run(input).chunks(REPORT_LENGTH).map(<[u8]>::to_vec).collect();
        score.check(&format!("{watch}: {name}, night {night}"), same(said.clone(), "report", &wanted));
    }
    let [Ok(one), Ok(other)] = &said else {
        return 0; // said already
    };
    let seen = pair.tenant.sees_the_same(one, other);
    let compared = *seen.as_ref().unwrap_or(&0);
    score.check(&format!("{watch}: {name}, {:x?}", pair.tenant), seen.map(|_| ()));
    compared
}
