//! Whole runs: a machine is made, driven by its schedule, and what is told of it is taken from it.
use crate::machine::{Exhausted, Machine};
use crate::network::Counts;
use crate::options::{Options, Schedule};
use crate::programs::{Record, Step};

#[derive(PartialEq, Eq)]
pub enum End {
    AllDone,
    Stalled,
    Limit,
    Exhausted,
}

pub struct Run {
    pub end: End,
    pub turns: u64,
    pub events: u64,
    pub issued: u64,
    pub records: Vec<Record>,
    pub counts: Counts,
}

impl<const ORDERED: bool> Machine<ORDERED> {
    fn into_run(self, end: Result<End, Exhausted>) -> Run {
        Run {
            end: end.unwrap_or(End::Exhausted),
            turns: self.turns,
            events: self.events,
            issued: self.issued,
            records: self.records,
            counts: self.network.counts,
        }
    }
}

/// Runs programs, one a core. By rounds no line is drawn, so the machine keeps none in order.
pub fn run(options: &Options, programs: Vec<Vec<Step>>) -> Run {
    match options.schedule {
        Schedule::Round => {
            let mut machine = Machine::<false>::new(options, programs);
            let end = machine.drive_round(options.limit);
            machine.into_run(end)
        }
        Schedule::Seed => {
            let mut machine = Machine::<true>::new(options, programs);
            let end = machine.drive_seed(options.seed, options.limit);
            machine.into_run(end)
        }
    }
}
