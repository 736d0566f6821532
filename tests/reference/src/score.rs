//! Compares output, counts checks, says loudly which failed and ends the program accordingly.

use crate::report::REPORT_LENGTH;
use std::fmt::{Display, Formatter};
use std::process::{exit, ExitCode};

/// More failures would only bury the first, and a program that hangs would take hours.
const MOST_FAILURES: u64 = 10;

#[derive(Debug, Default)]
pub struct Score {
    passed: u64,
    failed: u64,
}

impl Score {
    pub fn check(&mut self, name: &str, outcome: Result<(), String>) {
        match outcome {
            Ok(()) => self.passed += 1,
            Err(why) => {
                println!("FAILED {name}: {why}");
                self.failed += 1;
            }
        }
        if self.failed == MOST_FAILURES {
            println!("too many failures, not all was tried");
            self.end();
            exit(1);
        }
    }

    pub fn end(&self) -> ExitCode {
        println!("{} passed, {} failed", self.passed, self.failed);
        match self.failed == 0 && self.passed > 0 {
            true => ExitCode::SUCCESS,
            false => ExitCode::FAILURE,
        }
    }
}

/// A program under test, and how many of its outputs have been compared.
#[derive(Debug)]
pub struct Program {
    path: String,
    compared: u64,
}

impl Program {
    pub fn at(path: &str) -> Program {
        Program { path: path.into(), compared: 0 }
    }

    pub fn path(&self) -> &str {
        &self.path
    }

    /// Runs the program, and demands that its output is made of these parts.
    pub fn check(
        &mut self,
        score: &mut Score,
        name: &str,
        (part, wanted): (&str, &[Vec<u8>]),
        run: impl FnOnce(&str) -> Result<Vec<u8>, String>,
    ) -> bool {
        self.compared += 1;
        let outcome = same(run(&self.path), part, wanted);
        let holds = outcome.is_ok();
        score.check(&format!("{}: {name}", self.path), outcome);
        holds
    }
}

impl Display for Program {
    fn fmt(&self, to: &mut Formatter) -> std::fmt::Result {
        write!(to, "{}: {} outputs compared", self.path, self.compared)
    }
}

/// Demands that the output is made of these parts, and names the first that differs.
pub fn same(output: Result<Vec<u8>, String>, part: &str, wanted: &[Vec<u8>]) -> Result<(), String> {
    let output = output?;
    let mut rest = &output[..];
    for (number, want) in wanted.iter().enumerate() {
        let (got, after) = rest.split_at(want.len().min(rest.len()));
        if got != want {
            let at = got.iter().zip(want).take_while(|(got, want)| got == want).count();
            let (got, want) = (shown(got, at), shown(want, at));
            return Err(format!("{part} {number} differs from byte {at} on\n  got  {got}\n  want {want}"));
        }
        rest = after;
    }
    match rest.len() {
        0 => Ok(()),
        length => Err(format!("{length} bytes more than wanted")),
    }
}

/// The bytes from a place on, as many as a report has at most.
fn shown(bytes: &[u8], at: usize) -> String {
    format!("{:02x?}", &bytes[at..bytes.len().min(at + REPORT_LENGTH)])
}
