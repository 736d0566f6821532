//! All cases that the feeds, or the halls handed in, have to meet.

use crate::both_ways_cases::BothWaysCases;
use crate::claim_cases::ClaimCases;
use crate::closed_valve_cases::ClosedValveCases;
use crate::difference_cases::DifferenceCases;
use crate::drop_cases::DropCases;
use crate::hall::{Hall, TAKEN};
use crate::leak_cases::LeakCases;
use crate::lost_cases::LostCases;
use crate::manifold_cases::ManifoldCases;
use crate::outbox_cases::OutboxCases;
use crate::record::Record;
use crate::state::masks_of;
use std::fmt;

#[derive(Clone, Debug)]
pub struct Counted {
    pub leaks: LeakCases,
    pub both_ways: BothWaysCases,
    pub drops: DropCases,
    pub manifolds: ManifoldCases,
    pub closed_valves: ClosedValveCases,
    pub differences: DifferenceCases,
    pub lost: LostCases,
    /// No feed hands in a state, or lends an outbox.
    pub claims: Option<ClaimCases>,
    pub outboxes: Option<OutboxCases>,
}

impl Counted {
    pub fn of_feeds() -> Counted {
        Counted {
            leaks: LeakCases::default(),
            both_ways: BothWaysCases::of_feeds(),
            drops: DropCases::of_feeds(),
            manifolds: ManifoldCases::default(),
            closed_valves: ClosedValveCases::of_feeds(),
            differences: DifferenceCases::of_feeds(),
            lost: LostCases::default(),
            claims: None,
            outboxes: None,
        }
    }

    pub fn of_halls() -> Counted {
        Counted {
            leaks: LeakCases::default(),
            both_ways: BothWaysCases::of_halls(),
            drops: DropCases::of_halls(),
            manifolds: ManifoldCases::default(),
            closed_valves: ClosedValveCases::of_halls(),
            differences: DifferenceCases::of_halls(),
            lost: LostCases::default(),
            claims: Some(ClaimCases::default()),
            outboxes: Some(OutboxCases::default()),
        }
    }

    /// What the program reads for a night.
    pub fn add_feed(&mut self, input: &[u8]) {
        self.leaks.add_feed(input);
        self.both_ways.add_feed(input);
        self.drops.add_feed(input);
        self.manifolds.add_feed(input);
        self.closed_valves.add_feed(input);
        self.differences.add_feed(input);
        self.lost.add_feed(input);
    }

    /// The next record is for this hall.
    pub fn begin(&mut self, hall: &Hall) {
        self.both_ways.begin();
        self.drops.begin();
        self.closed_valves.begin();
        self.differences.begin();
        self.manifolds.add_map(&masks_of(hall));
    }

    /// A call's answer, the hall before it, the record that it settled, or would settle with a longer outbox, the
    /// hall after it, and the full records that were lost.
    pub fn add_call(
        &mut self,
        answer: u8,
        before: &Hall,
        settled: Option<&Record>,
        after: &Hall,
        lost: &[Vec<u8>],
    ) {
        lost.iter().for_each(|bytes| self.lost.add(bytes));
        if let Some(record) = settled {
            self.both_ways.add(answer, before, record);
            self.drops.add(answer, before, record, after);
            self.manifolds.add(answer, before, record, after);
            self.closed_valves.add(answer, before, record, after);
            self.differences.add(answer, before, record, after);
            if answer == TAKEN {
                self.leaks.add_call(record, after);
            }
        }
    }

    /// Demands that every variant of every case was met that often.
    pub fn each_met(&self, least: u64) -> Result<(), String> {
        self.leaks.each_met(least)?;
        self.both_ways.each_met(least)?;
        self.drops.each_met(least)?;
        self.manifolds.each_met(least)?;
        self.closed_valves.each_met(least)?;
        self.differences.each_met(least)?;
        self.lost.each_met(least)?;
        self.claims.iter().try_for_each(|claims| claims.each_met(least))?;
        self.outboxes.iter().try_for_each(|outboxes| outboxes.each_met(least))
    }
}

impl fmt::Display for Counted {
    fn fmt(&self, lines: &mut fmt::Formatter) -> fmt::Result {
        write!(lines, "leaks, by the fuel word, by the oxidizer word, by both:\n{}", self.leaks)?;
        write!(lines, "jets named both ways:\n{}", self.both_ways)?;
        write!(lines, "close bits dropped:\n{}", self.drops)?;
        write!(lines, "manifolds:\n{}", self.manifolds)?;
        write!(lines, "re-enables behind closed valves:\n{}", self.closed_valves)?;
        write!(lines, "the banks' differences:\n{}", self.differences)?;
        write!(lines, "records lost:\n{}", self.lost)?;
        self.claims.iter().try_for_each(|claims| write!(lines, "claims of held bytes:\n{claims}"))?;
        self.outboxes.iter().try_for_each(|outboxes| write!(lines, "outboxes:\n{outboxes}"))
    }
}
