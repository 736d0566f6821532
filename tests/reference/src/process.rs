//! A program under test: its input is written and its output read side by side, so that
//! neither end can block the other, and every wait has a limit.

use crate::random::Random;
use std::fs::File;
use std::io::{Read, Write};
use std::process::{Child, ChildStdin, Command, ExitStatus, Stdio};
use std::sync::mpsc::{channel, Receiver, RecvTimeoutError};
use std::thread;
use std::time::{Duration, Instant};

pub struct Running {
    pub child: Child,
    /// The program sees its input end when this is dropped.
    pub input: Option<ChildStdin>,
    output: Receiver<Vec<u8>>,
    errors: Receiver<Vec<u8>>,
    /// Received, but not asked for yet.
    received: Vec<u8>,
}

impl Running {
    /// Without `listening`, nobody is there to read the program's output.
    pub fn start(program: &str, input: Stdio, listening: bool) -> Result<Running, String> {
        let mut command = Command::new(program);
        command.stdin(input).stdout(Stdio::piped()).stderr(Stdio::piped());
        let mut child = command.spawn().map_err(|error| format!("can't start {program}: {error}"))?;
        let input = child.stdin.take();
        let output = chunks(child.stdout.take().filter(|_| listening));
        let errors = chunks(child.stderr.take());
        Ok(Running { child, input, output, errors, received: Vec::new() })
    }

    /// The next `count` bytes of output.
    pub fn receive(&mut self, count: usize, limit: Duration) -> Result<Vec<u8>, String> {
        let end = Instant::now() + limit;
        while self.received.len() < count {
            match self.output.recv_timeout(until(end)) {
                Ok(chunk) => self.received.extend(chunk),
                Err(_) => return Err(format!("{} of {count} bytes came", self.received.len())),
            }
        }
        Ok(self.received.drain(..count).collect())
    }

    /// Demands that no output comes for a while.
    pub fn stays_silent(&mut self, time: Duration) -> Result<(), String> {
        match self.receive(1, time) {
            Ok(_) => Err("output came too early".into()),
            Err(_) => Ok(()),
        }
    }

    /// All output up to its end. The program must then end of its own, without any complaint.
    pub fn finish(&mut self, limit: Duration) -> Result<Vec<u8>, String> {
        let end = Instant::now() + limit;
        loop {
            match self.output.recv_timeout(until(end)) {
                Ok(chunk) => self.received.extend(chunk),
                Err(RecvTimeoutError::Disconnected) => break,
                Err(RecvTimeoutError::Timeout) => return Err("its output does not end".into()),
            }
        }
        let status = self.ended(until(end))?;
        let errors: Vec<u8> = self.errors.iter().flatten().collect();
        if status.code().is_none() || !errors.is_empty() {
            return Err(format!("it ends badly, {status}: {}", String::from_utf8_lossy(&errors)));
        }
        Ok(std::mem::take(&mut self.received))
    }

    /// Waits for the program's end, however it comes.
    pub fn ended(&mut self, limit: Duration) -> Result<ExitStatus, String> {
        let end = Instant::now() + limit;
        loop {
            match self.child.try_wait() {
                Ok(Some(status)) => return Ok(status),
                _ if until(end).is_zero() => return Err("it does not end".into()),
                _ => thread::sleep(Duration::from_micros(200)),
            }
        }
    }
}

impl Drop for Running {
    /// Only ever this child, and only if it still runs.
    fn drop(&mut self) {
        let _ = self.child.kill();
        let _ = self.child.wait();
    }
}

/// Runs a program over pieces of input, each written at once, with short rests in between so
/// that it sees them apart.
pub fn run_pieces(program: &str, pieces: Vec<Vec<u8>>, limit: Duration) -> Result<Vec<u8>, String> {
    let mut running = Running::start(program, Stdio::piped(), true)?;
    let mut input = running.input.take().expect("input is piped");
    let writer = thread::spawn(move || {
        for piece in pieces {
            // The program may rightly end before it has read everything.
            if input.write_all(&piece).is_err() {
                return;
            }
            thread::sleep(Duration::from_micros(20));
        }
    });
    let output = running.finish(limit);
    drop(running);
    writer.join().map_err(|_| "the writing thread broke off")?;
    output
}

/// Runs a program over a file.
pub fn run_file(program: &str, input: &[u8], limit: Duration) -> Result<Vec<u8>, String> {
    let path = std::env::temp_dir().join(format!("compare-{}.feed", std::process::id()));
    let output = std::fs::write(&path, input)
        .and_then(|()| File::open(&path))
        .map_err(|error| format!("can't keep the feed: {error}"))
        .and_then(|file| Running::start(program, Stdio::from(file), true)?.finish(limit));
    let _ = std::fs::remove_file(&path);
    output
}

/// Pieces of random length, tiny ones too.
pub fn cut(mut bytes: &[u8], random: &mut Random) -> Vec<Vec<u8>> {
    let longest = random.pick(&[200, 1_000, 5_000, 20_000]);
    let mut pieces = Vec::new();
    while !bytes.is_empty() {
        let end = random.pick(&[3, longest, longest, longest]);
        let (piece, rest) = bytes.split_at((1 + random.index(end)).min(bytes.len()));
        pieces.push(piece.to_vec());
        bytes = rest;
    }
    pieces
}

fn until(end: Instant) -> Duration {
    end.saturating_duration_since(Instant::now())
}

/// Reads a stream in a thread of its own.
fn chunks(stream: Option<impl Read + Send + 'static>) -> Receiver<Vec<u8>> {
    let (sender, receiver) = channel();
    if let Some(mut stream) = stream {
        thread::spawn(move || {
            let mut chunk = vec![0; 65_536];
            while let Ok(length @ 1..) = stream.read(&mut chunk) {
                let _ = sender.send(chunk[..length].to_vec());
            }
        });
    }
    receiver
}
