//! `latency WATCH [RECORDS]`: demands that each report is out before the next byte is sent, and
//! that the program ends when it should and does not grow over a long run of RECORDS records.

use reference::feed::{masks_bytes, settle_piece, MASKS_LENGTH};
use reference::generate::Night;
use reference::hall::Masks;
use reference::maps::masks_of;
use reference::process::Running;
use reference::random::Random;
use reference::record::{Record, MAJOR, MARK};
use reference::report::{Report, REPORT_LENGTH};
use reference::score::{same, Score};
use reference::Monitor;
use std::io::Write;
use std::process::{ExitCode, Stdio};
use std::thread;
use std::time::Duration;

const LIMIT: Duration = Duration::from_secs(5);
const WHILE: Duration = Duration::from_millis(60);
const MASKS: Masks =
    [masks_of(&[0x0F, 0xF0, 0xFF00, 0x8000_0000, 0, 0x0003_0000, 0x0070_0000, 0x4000_0000]); 4];
const LOOKS: u64 = 40;
const MOST_KILOBYTES: u64 = 6_144;
/// The system's own count may be off by some pages for each processor.
const MOST_GROWTH: u64 = 512;

type Outcome = Result<(), String>;

fn main() -> ExitCode {
    let mut arguments = std::env::args().skip(1);
    let watch = arguments.next();
    let records = arguments.next().map_or(Ok(200_000), |number| number.parse());
    let (Some(watch), Ok(records), None) = (&watch, records, arguments.next()) else {
        eprintln!("usage: latency WATCH [RECORDS]");
        return ExitCode::FAILURE;
    };
    let mut score = Score::default();
    let mut night = |name, act: fn(&mut Pair) -> Outcome| score.check(name, whole_night(watch, act));
    night("each report before the next record", one_at_a_time);
    night("records in two halves", two_halves);
    night("records byte by byte", byte_by_byte);
    night("a false major gives up its records at once", false_major);
    night("a close order is out when it falls due, and gone when it is dropped", close_order);
    score.check("masks and first record in one write", masks_with_record(watch));
    score.check("output closed early", output_closed(watch));
    score.check("input closed in a record", input_closed(watch));
    score.check("a long run does not grow", long_run(watch, records));
    score.end()
}

/// A program and the reference, side by side.
struct Pair {
    running: Running,
    monitor: Monitor,
}

impl Pair {
    /// The program has got these first bytes of its input.
    fn start(watch: &str, first: &[u8]) -> Result<Pair, String> {
        let running = Running::start(watch, Stdio::piped(), true)?;
        let mut pair = Pair { running, monitor: Monitor::start(MASKS).1 };
        pair.send(first)?;
        Ok(pair)
    }

    fn send(&mut self, bytes: &[u8]) -> Outcome {
        let input = self.running.input.as_mut().ok_or("its input is closed")?;
        input.write_all(bytes).map_err(|error| format!("can't send: {error}"))
    }

    /// Demands the reports of these bytes of the feed.
    fn receive(&mut self, bytes: &[u8]) -> Result<Vec<u8>, String> {
        let mut reports = Vec::new();
        settle_piece(&mut self.monitor, bytes, &mut reports);
        let got = self.running.receive(reports.len(), LIMIT);
        let outcome = same(got, "output", std::slice::from_ref(&reports));
        outcome.map_err(|why| format!("cycle {}: {why}", self.monitor.hall.n))?;
        Ok(reports)
    }

    /// Sends bytes of the feed and demands their reports before it returns.
    fn exchange(&mut self, bytes: &[u8]) -> Result<Vec<u8>, String> {
        self.send(bytes)?;
        self.receive(bytes)
    }

    /// Ends the input and demands no more than the given reports.
    fn finish(&mut self, reports: Vec<u8>) -> Outcome {
        self.running.input = None;
        same(self.running.finish(LIMIT), "output", &[reports])
    }
}

fn quiet(cycle: u64) -> Vec<u8> {
    Record::quiet(cycle).bytes()
}

fn whole_night(watch: &str, act: fn(&mut Pair) -> Outcome) -> Outcome {
    let mut pair = Pair::start(watch, &masks_bytes(&MASKS))?;
    act(&mut pair)?;
    pair.finish(Vec::new())
}

/// Refused records, the last two here, have their reports too.
fn one_at_a_time(pair: &mut Pair) -> Outcome {
    (1..=60).chain([60, 1]).try_for_each(|cycle| pair.exchange(&quiet(cycle)).map(drop))
}

fn two_halves(pair: &mut Pair) -> Outcome {
    for (cycle, half) in [(1, 1), (2, 30), (3, 58), (25, 59), (26, 2), (50, 618)] {
        let record = quiet(cycle);
        pair.exchange(&record[..half])?;
        pair.running.stays_silent(WHILE)?;
        pair.exchange(&record[half..])?;
    }
    Ok(())
}

fn byte_by_byte(pair: &mut Pair) -> Outcome {
    let records = [quiet(24), quiet(25), quiet(26)].concat();
    records.iter().try_for_each(|byte| pair.exchange(&[*byte]).map(drop))
}

/// Three records settle at one byte; none of their reports may wait for another.
fn false_major(pair: &mut Pair) -> Outcome {
    let mut bytes = [vec![MARK, MAJOR], quiet(1), quiet(2), quiet(3)].concat();
    bytes.resize(618, 0);
    pair.exchange(&bytes)?;
    pair.running.stays_silent(WHILE)?;
    pair.exchange(&[0])?;
    pair.exchange(&quiet(4)).map(drop)
}

/// The order, and its end when it is dropped, are out while the input stays open and silent.
fn close_order(pair: &mut Pair) -> Outcome {
    for cycle in 1..=100 {
        let mut record = Record::quiet(cycle);
        record.strings[2].driver = if cycle <= 75 { 0x20 } else { 0 };
        for major in record.major.iter_mut().filter(|_| cycle == 100) {
            major.strings[2].drops = 2;
        }
        let report = Report::read(&pair.exchange(&record.bytes())?);
        assert_eq!(report.close, [0, 0, if (75..100).contains(&cycle) { 2 } else { 0 }, 0]);
        if cycle == 75 {
            pair.running.stays_silent(WHILE)?;
        }
    }
    pair.running.stays_silent(WHILE)
}

fn masks_with_record(watch: &str) -> Outcome {
    let masks = masks_bytes(&MASKS);
    for apart in [0, 1, 64, MASKS_LENGTH - 1] {
        let mut pair = Pair::start(watch, &masks[..apart])?;
        pair.running.stays_silent(WHILE)?;
        pair.send(&[&masks[apart..], &quiet(1)].concat())?;
        pair.receive(&quiet(1))?;
        pair.exchange(&quiet(2))?;
        pair.finish(Vec::new())?;
    }
    Ok(())
}

/// A program that can't write must end, though its input stays open.
fn output_closed(watch: &str) -> Outcome {
    let mut running = Running::start(watch, Stdio::piped(), false)?;
    let input = running.input.as_mut().expect("input is piped");
    // The program may be gone before all is written; that is no fault.
    let _ = input.write_all(&[&masks_bytes(&MASKS)[..], &quiet(1)].concat());
    running.ended(LIMIT).map(drop)
}

fn input_closed(watch: &str) -> Outcome {
    let feed = [quiet(1), quiet(2)].concat();
    for length in [0, 1, 2, 30, 58, 59, 60, 117] {
        let mut pair = Pair::start(watch, &[&masks_bytes(&MASKS), &feed[..length]].concat())?;
        let mut reports = Vec::new();
        settle_piece(&mut pair.monitor, &feed[..length], &mut reports);
        pair.finish(reports).map_err(|why| format!("after {length} bytes: {why}"))?;
    }
    Ok(())
}

/// The feed is made on the fly, once to be sent and once to be followed by the reference.
fn long_run(watch: &str, records: u64) -> Outcome {
    let mut pair = Pair::start(watch, &masks_bytes(&MASKS))?;
    let mut input = pair.running.input.take().expect("input is open");
    let id = pair.running.child.id();
    // With this seed everything happens that can happen on a line.
    let mut night = Night::after(0, &MASKS, Random(1291));
    let mut sent = night.clone();
    let writer = thread::spawn(move || {
        let (mut looks, mut bytes) = (Vec::new(), 0);
        for number in 0..records {
            if number % (records / LOOKS).max(1) == 0 {
                looks.extend(peak_kilobytes(id));
            }
            let step = sent.step();
            bytes += step.len();
            // It fails only if the program has ended, which is seen below.
            let _ = input.write_all(&step);
        }
        (looks, bytes)
    });
    let mut reports = 0;
    let mut outcome = (0..records).try_for_each(|_| {
        reports += pair.receive(&night.step())?.len() / REPORT_LENGTH;
        Ok(())
    });
    outcome = outcome.and_then(|()| pair.finish(Vec::new()));
    drop(pair);
    let (looks, bytes) = writer.join().map_err(|_| "the writing thread broke off")?;
    println!("long run: {records} good records, {bytes} bytes, {reports} reports");
    outcome.and_then(|()| stays_small(&looks))
}

fn stays_small(looks: &[u64]) -> Outcome {
    // The first looks may still see the program start up.
    let settled = &looks[looks.len() / 4..];
    let (least, most) = (settled.iter().min(), settled.iter().max());
    let (least, most) = least.zip(most).ok_or("its memory was never seen")?;
    println!("peak resident memory: {least} to {most} kB, seen {} times", looks.len());
    match *most <= MOST_KILOBYTES && most - least <= MOST_GROWTH {
        true => Ok(()),
        false => Err(format!("peak resident memory goes from {least} to {most} kB")),
    }
}

fn peak_kilobytes(id: u32) -> Option<u64> {
    let status = std::fs::read_to_string(format!("/proc/{id}/status")).ok()?;
    let line = status.lines().find_map(|line| line.strip_prefix("VmHWM:"))?;
    line.split_whitespace().next()?.parse().ok()
}
