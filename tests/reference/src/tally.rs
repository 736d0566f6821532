//! Figures on the feeds that were compared, so that one can see what they tried.

use crate::hall::{BOTH_WAYS, TAKEN};
use crate::report::Report;

#[derive(Clone, Debug, Default)]
pub struct Tally {
    pub feeds: u64,
    pub bytes: u64,
    pub records: u64,
    pub taken: u64,
    pub refused_with_1_to_4: [u64; 4],
    pub refused_with_7: u64,
    pub damaged_spots: u64,
    pub wire_wraps: u64,
    pub feeds_with_failed_jet: u64,
    pub feeds_with_close_bit: u64,
    /// Reports in which a close bit is gone that the one before had.
    pub drops_seen: u64,
    pub feeds_with_imbalance: u64,
}

impl Tally {
    pub fn add(&mut self, length: usize, damaged: u64, reports: &[Vec<u8>]) {
        let reports: Vec<Report> = reports.iter().map(|bytes| Report::read(bytes)).collect();
        self.feeds += 1;
        self.bytes += length as u64;
        self.records += reports.len() as u64;
        for report in &reports {
            match report.answer {
                TAKEN => self.taken += 1,
                BOTH_WAYS => self.refused_with_7 += 1,
                answer => self.refused_with_1_to_4[usize::from(answer) - 1] += 1,
            }
        }
        self.damaged_spots += damaged;
        let wraps = |pair: &&[Report]| pair[0].n / 65_536 != pair[1].n / 65_536;
        self.wire_wraps += reports.windows(2).filter(wraps).count() as u64;
        let drops = |pair: &&[Report]| (0..4).any(|s| pair[0].close[s] & !pair[1].close[s] != 0);
        self.drops_seen += reports.windows(2).filter(drops).count() as u64;
        let any = |test: fn(&Report) -> bool| u64::from(reports.iter().any(test));
        self.feeds_with_failed_jet += any(|report| report.fail != [0; 4]);
        self.feeds_with_close_bit += any(|report| report.close != [0; 4]);
        self.feeds_with_imbalance += any(|report| report.balance % 8 != 0);
    }
}
