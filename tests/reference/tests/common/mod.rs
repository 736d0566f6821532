//! A monitor to which the tests send records, one at a time.
#![allow(dead_code)] // no test file needs all of it

use reference::hall::Masks;
use reference::jet::{ALL_MANIFOLDS, MANIFOLDS};
use reference::maps::masks_of;
use reference::record::{Record, StringMajor, StringWords};
use reference::report::{Report, REPORT_LENGTH};
use reference::Monitor;

pub const NO_JETS: [u32; MANIFOLDS] = [0; MANIFOLDS];
/// String 0, manifold 0 = 0000000F, others zero.
pub const MAP: Masks = [masks_of(&[0x0F]), NO_JETS, NO_JETS, NO_JETS];
/// Two manifolds in every string.
pub const WIDE_MAP: Masks = [masks_of(&[0x0F, 0xF0]); 4];
/// Four jets on each manifold of each string, in order.
pub const FULL_MAP: Masks = [EVEN; 4];
const EVEN: [u32; MANIFOLDS] = masks_of(&[
    0x0000_000F,
    0x0000_00F0,
    0x0000_0F00,
    0x0000_F000,
    0x000F_0000,
    0x00F0_0000,
    0x0F00_0000,
    0xF000_0000,
]);
/// One jet of each manifold of that map.
pub const ONE_OF_EACH: u32 = 0x1111_1111;
/// The byte in which the bits of all manifolds are set.
pub const ALL: u8 = ALL_MANIFOLDS as u8;

#[derive(Clone)]
pub struct Post {
    pub monitor: Monitor,
}

impl Post {
    pub fn over(masks: Masks) -> Post {
        let (answer, monitor) = Monitor::start(masks);
        assert_eq!(answer, 0);
        Post { monitor }
    }

    /// Sends one whole record and reads its report.
    pub fn send(&mut self, record: &Record) -> Report {
        let bytes = record.bytes();
        let mut outbox = [0xEE; REPORT_LENGTH + 6];
        let (answer, used) = self.monitor.call(&bytes, &mut outbox);
        let report = Report::read(&outbox);
        assert_eq!((answer, used), (report.answer, bytes.len()));
        assert_eq!(outbox, [&report.bytes()[..], &[0xEE; 6]].concat()[..]);
        report
    }

    /// Sends one that must be taken.
    pub fn take(&mut self, record: &Record) -> Report {
        let report = self.send(record);
        assert_eq!(report.answer, 0, "wire cycle {}", record.wire);
        report
    }

    /// Quiet records for every cycle up to and including `n`.
    pub fn quiet_until(&mut self, n: u64) {
        for cycle in u64::from(self.monitor.hall.n) + 1..=n {
            self.take(&Record::quiet(cycle));
        }
    }
}

/// A quiet record for cycle `n` but for the words of string `s`.
pub fn with(n: u64, s: usize, change: impl Fn(&mut StringWords)) -> Record {
    let mut record = Record::quiet(n);
    change(&mut record.strings[s]);
    record
}

/// A quiet major record for cycle `n` but for the major part of string `s`.
pub fn with_major(n: u64, s: usize, change: impl Fn(&mut StringMajor)) -> Record {
    let mut record = Record::quiet(n);
    change(&mut record.major.as_mut().expect("a major record").strings[s]);
    record
}

/// Jets of string `s` commanded, none with pressure.
pub fn no_pressure(n: u64, s: usize, jets: u32) -> Record {
    with(n, s, |words| words.commanded = jets)
}

/// Drivers of string `s` on without a command.
pub fn driver_on(n: u64, s: usize, jets: u32) -> Record {
    with(n, s, |words| words.driver = jets)
}
