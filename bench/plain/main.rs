//! A simulator of the Tardis machine in plain Rust: a yardstick for the project's program, of which nothing is proved.
//! It runs the tables of docs/PROTOCOL.md by the schedules of docs/SCHEDULES.md. maintain/speed.py builds and runs it.
//!
//!     plain round|seed CORES WORDS OPERATIONS    runs the load of bench_schedules and tells the number of its events
//!     plain trace [OPTION..] [--records] FILE    runs a trace and tells a report of it, or its records
mod banks;
mod cores;
mod deliveries;
mod dram;
mod generator;
mod machine;
mod network;
mod options;
mod places;
mod programs;
mod ranked;
mod rounds;
mod runs;
mod seeds;
mod sets;
mod trace;

use options::{Options, Schedule};
use programs::random_program;
use runs::{End, run};
use std::env;

/// Runs programs of random operations until all are done, and tells the number of events.
fn measure(schedule: Schedule, words: &[String]) {
    let numbers: Vec<u32> = words.iter().map(|word| word.parse().expect("a number")).collect();
    let [cores, words, operations] = numbers[..] else { panic!("CORES WORDS OPERATIONS are wanted") };
    let programs = (0..cores).map(|core| random_program(core, words, operations)).collect();
    let options = Options { schedule, seed: 1, limit: u64::MAX, ..Options::default() };
    let run = run(&options, programs);
    assert!(run.end == End::AllDone, "the load isn't done");
    println!("{} events", run.events);
}

/// Runs the trace of a file. Standard error tells the numbers of events and turns.
fn run_trace(words: &[String]) {
    let mut options = Options::default();
    let rest = options.read(words);
    let (file, tells_records) = match rest[..] {
        ["--records", file] => (file, true),
        [file] => (file, false),
        _ => panic!("a FILE is wanted"),
    };
    let programs = trace::read(file);
    let cores = programs.len();
    let run = run(&options, programs);
    print!("{}", if tells_records { trace::records_text(&run.records) } else { trace::report(cores, &run) });
    eprintln!("{} events, {} turns", run.events, run.turns);
}

fn main() {
    let words: Vec<String> = env::args().skip(1).collect();
    match words.first().map(String::as_str) {
        Some("round") => measure(Schedule::Round, &words[1..]),
        Some("seed") => measure(Schedule::Seed, &words[1..]),
        Some("trace") => run_trace(&words[1..]),
        _ => panic!("round, seed or trace is wanted"),
    }
}
