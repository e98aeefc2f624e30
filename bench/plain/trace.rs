//! The texts of a run of a trace: the trace itself, the records, and the lines of a report that every run has.
//! A trace is taken to be right, as the project's reader has found it; its faults end this program.
use crate::programs::{Record, Step, StepKind};
use crate::runs::{End, Run};
use std::fmt::Write;

/// The programs of the cores of a trace.
pub fn read(path: &str) -> Vec<Vec<Step>> {
    let text = std::fs::read_to_string(path).expect("a trace");
    let mut programs = vec![Vec::new()];
    for line in text.lines() {
        let fields: Vec<&str> = line.split('#').next().unwrap_or("").split_whitespace().collect();
        if fields.is_empty() || fields[0] == "trace" {
            continue;
        }
        let core: usize = fields[0].parse().expect("a core");
        if programs.len() <= core {
            programs.resize_with(core + 1, Vec::new);
        }
        programs[core].push(step(&fields[1..]));
    }
    programs
}

fn step(fields: &[&str]) -> Step {
    let kind = match fields[0] {
        "R" => StepKind::Load,
        "W" => StepKind::Store,
        "S" => StepKind::Swap,
        _ => StepKind::Advance,
    };
    let address = |text: &&str| u64::from_str_radix(&text[2..], 16).expect("an address");
    let value = |text: &&str| text.parse().expect("a value");
    Step { word: fields.get(1).map_or(0, address) / 8, value: fields.get(2).map_or(0, value), kind }
}

pub fn records_text(records: &[Record]) -> String {
    let mut text = String::new();
    for record in records {
        let Record { word, value, received, time, number, place, core, .. } = record;
        let address = 8 * word;
        let line = match record.kind {
            StepKind::Load => format_args!("R {address:#x} {received}"),
            StepKind::Store => format_args!("W {address:#x} {value}"),
            _ => format_args!("S {address:#x} {value} {received}"),
        };
        writeln!(text, "{core} {place} {line} {time} {number}").expect("a string takes all");
    }
    text
}

pub fn report(cores: usize, run: &Run) -> String {
    let end = match run.end {
        End::AllDone => "all-done",
        End::Stalled => "stalled",
        End::Limit => "limit",
        End::Exhausted => "exhausted",
    };
    let (issued, completed, counts) = (run.issued, run.records.len(), &run.counts);
    format!("cores {cores}\nissued {issued}\ncompleted {completed}\nend {end}\n")
        + &format!("renewals {}\nupgrades {}\n", counts.renewals, counts.upgrades)
        + &format!("flushes {}\nwrite-backs {}\n", counts.flushes, counts.write_backs)
}
