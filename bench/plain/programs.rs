//! Steps of programs, records of completed operations, and the random programs of bench_schedules.
use crate::generator::Generator;

#[derive(Clone, Copy, PartialEq, Eq)]
#[repr(u8)]
pub enum StepKind {
    Load,
    Store,
    Swap,
    Advance,
}

/// An operation, or an advance, which has no word. A load has no value.
#[derive(Clone, Copy)]
pub struct Step {
    pub word: u64,
    pub value: u64,
    pub kind: StepKind,
}

/// A completed operation. `place` counts the operations of its core from 0 on; `number` is the completion number.
pub struct Record {
    pub word: u64,
    pub value: u64,
    pub received: u64,
    pub time: u64,
    pub number: u64,
    pub place: u32,
    pub core: u8,
    pub kind: StepKind,
}

/// The program of a core: half loads, three in ten stores, two in ten swaps, each of a word that is picked evenly.
pub fn random_program(core: u32, words: u32, operations: u32) -> Vec<Step> {
    let mut generator = Generator::of_seed(u64::from(core));
    let operation = |_| {
        let kind = match generator.draw() % 10 {
            0..=4 => StepKind::Load,
            5..=7 => StepKind::Store,
            _ => StepKind::Swap,
        };
        let word = u64::from(generator.draw() % words);
        let value = u64::from(generator.draw());
        Step { word, value: if kind == StepKind::Load { 0 } else { value }, kind }
    };
    (0..operations).map(operation).collect()
}
