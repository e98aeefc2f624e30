//! The whole machine, and what its events answer.
use crate::banks::Entry;
use crate::cores::{Core, PrivateCopy};
use crate::dram::Dram;
use crate::network::Network;
use crate::options::Options;
use crate::places::Places;
use crate::programs::{Record, Step};
use crate::ranked::RankedLines;
use crate::sets::Sets;

/// A time doesn't fit 64 bits: it ends the run.
pub struct Exhausted;

/// The answer to a step of a program: an operation was issued, or the core advanced.
#[derive(PartialEq, Eq)]
pub enum Stepped {
    Issued,
    Advanced,
}

/// The answer to an attempt. Of NoRoom it has the set that is full.
#[derive(Clone, Copy)]
pub enum Attempted {
    Completed,
    Requested,
    Waiting,
    NoRoom(usize),
    NetworkFull,
}

/// The answer to a delivery. A consumed message was delivered without an answer, or dropped: its slot is to be freed.
/// The slot of an answered one has the answer. In all other cases the message stays in flight. HeldForRoom has the
/// full set, if an eviction can make room in it for the request that is held.
pub enum Delivered {
    Consumed,
    Answered,
    Started,
    Held,
    HeldForRoom(usize),
    NetworkFull,
}

/// `ORDERED` says whether lines are kept in rising order, for a schedule that draws them.
pub struct Machine<const ORDERED: bool> {
    pub lease: u64,
    pub private_write: bool,
    pub places: Places,
    pub cores: Vec<Core>,
    pub caches: Sets<PrivateCopy>,
    pub banks: Sets<Entry>,
    /// The memory time of each bank.
    pub mts: Vec<u64>,
    pub dram: Dram,
    pub network: Network,
    pub records: Vec<Record>,
    pub events: u64,
    pub turns: u64,
    pub issued: u64,
    /// How many cores have an open operation or a next step.
    pub unfinished: usize,
    /// Which cores have a step or an attempt to make, as bits.
    pub ready: u64,
    /// The lines of each cache, if they are kept in order, and those of each bank that are Shared or Exclusive there.
    pub cache_lines: Vec<RankedLines>,
    pub bank_lines: Vec<RankedLines>,
    /// How many copies there are in all caches, and how many of them are pinned, if lines are kept in order.
    pub copies: usize,
    pub pinned_copies: usize,
}

impl<const ORDERED: bool> Machine<ORDERED> {
    pub fn new(options: &Options, programs: Vec<Vec<Step>>) -> Self {
        let count = programs.len();
        assert!((1..=64).contains(&count), "a machine has 1 to 64 cores");
        let has_steps = |core: &usize| !programs[*core].is_empty();
        let ready = (0..count).filter(has_steps).fold(0, |bits, core| bits | 1 << core);
        let (sets, banks) = (options.sets as usize, options.banks as usize);
        Machine {
            lease: options.lease,
            private_write: options.private_write,
            places: Places::new(options),
            unfinished: (0..count).filter(has_steps).count(),
            cores: programs.into_iter().map(|program| Core::new(options.time, program)).collect(),
            caches: Sets::new(count * sets, options.ways, PrivateCopy::EMPTY),
            banks: Sets::new(banks * options.bank_sets as usize, options.bank_ways, Entry::EMPTY),
            mts: vec![options.time; banks],
            dram: Dram::default(),
            network: Network::new(options.messages),
            records: Vec::new(),
            events: 0,
            turns: 0,
            issued: 0,
            ready,
            cache_lines: vec![RankedLines::default(); if ORDERED { count } else { 0 }],
            bank_lines: vec![RankedLines::default(); if ORDERED { banks } else { 0 }],
            copies: 0,
            pinned_copies: 0,
        }
    }
}
