//! Compares the monitor with the reference interpreter seed by seed, and slotsheet and lookprobe with what the reference
//! says.
//! Usage: differential [--first SEED] [--seeds N] --slotsheet PROGRAM --lookprobe PROGRAM

#![forbid(unsafe_code)]

use differential::backlogs::BacklogTally;
use differential::calls::BOTH;
use differential::compare::Comparison;
use differential::desks::LAWS;
use differential::looks::LooksTally;
use differential::raises::RaiseTally;
use differential::report::Mismatch;
use differential::slotsheet::SlotsheetTally;
use differential::{
    backlogs, cases, desk_report, desks, looks, mailboxes, raises, secrecy, secrecy_report, slotsheet, text_cases,
};
use std::env;
use std::ffi::OsString;
use std::process::ExitCode;

const USAGE: &str = "usage: differential [--first SEED] [--seeds N] --slotsheet PROGRAM --lookprobe PROGRAM";

/// Mismatches that are shown whole; all are counted.
const SHOWN: u64 = 3;

/// What the command line asks for.
struct Options {
    first: u64,
    seeds: u64,
    slotsheet: OsString,
    lookprobe: OsString,
}

fn options(mut arguments: impl Iterator<Item = OsString>) -> Option<Options> {
    let (mut first, mut seeds, mut slotsheet, mut lookprobe) = (0, 6_000, None, None);
    while let Some(name) = arguments.next() {
        let value = arguments.next()?;
        match name.to_str()? {
            "--first" => first = value.to_str()?.parse().ok()?,
            "--seeds" => seeds = value.to_str()?.parse().ok()?,
            "--slotsheet" => slotsheet = Some(value),
            "--lookprobe" => lookprobe = Some(value),
            _ => return None,
        }
    }
    Some(Options { first, seeds, slotsheet: slotsheet?, lookprobe: lookprobe? })
}

/// The number of mismatches so far.
#[derive(Default)]
struct Mismatches(u64);

impl Mismatches {
    /// Counts the mismatch, if there is one.
    fn note(&mut self, outcome: Result<(), Mismatch>) {
        if let Err(mismatch) = outcome {
            self.0 += 1;
            if self.0 <= SHOWN {
                eprintln!("differential: {mismatch}");
            }
        }
    }
}

/// Compares all, prints what was compared and what is missing for it to count, and tells whether all is well.
fn run(options: &Options) -> bool {
    let mut mismatches = Mismatches::default();
    let mut comparison = Comparison::new(BOTH);
    let mut secrecy_tally = secrecy_report::tally();
    let mut desk_tally = desk_report::tally();
    for seed in (options.first..).take(options.seeds as usize) {
        mismatches.note(cases::run(&mut comparison, seed));
        mismatches.note(text_cases::run(&mut comparison, seed));
        mismatches.note(secrecy::run(&mut secrecy_tally, &BOTH, seed));
        mismatches.note(desks::run(&mut desk_tally, &LAWS, &BOTH, seed));
    }
    let mut backlog_tally = BacklogTally::default();
    for number in 0..mailboxes::IMAGES {
        mismatches.note(backlogs::run(&mut comparison, &mut backlog_tally, number));
    }
    let mut raise_tally = RaiseTally::default();
    for number in 0..raises::IMAGES {
        mismatches.note(raises::run(&mut comparison, &mut raise_tally, number));
    }
    let mut slotsheet_tally = SlotsheetTally::default();
    for input in slotsheet::inputs() {
        mismatches.note(slotsheet::run(&mut slotsheet_tally, &options.slotsheet, &input));
    }
    let mut looks_tally = LooksTally::default();
    for input in looks::inputs() {
        mismatches.note(looks::run(&mut looks_tally, &options.lookprobe, &input));
    }
    let tally = comparison.tally;
    println!(
        "{tally}\n{secrecy_tally}\n{desk_tally}\n{backlog_tally}\n{raise_tally}\n{slotsheet_tally}\n{looks_tally}"
    );
    let trials = [secrecy_tally.shortfalls(), desk_tally.shortfalls()].concat();
    let calls = [tally.shortfalls(), trials, backlog_tally.shortfalls(), raise_tally.shortfalls()].concat();
    let missing = [calls, slotsheet_tally.shortfalls(), looks_tally.shortfalls()].concat();
    missing.iter().for_each(|missing| eprintln!("differential: {missing}"));
    println!("{} calls compared, {} mismatches", tally.compared, mismatches.0);
    mismatches.0 == 0 && missing.is_empty()
}

fn main() -> ExitCode {
    let Some(options) = options(env::args_os().skip(1)) else {
        eprintln!("{USAGE}");
        return ExitCode::FAILURE;
    };
    if run(&options) {
        ExitCode::SUCCESS
    } else {
        ExitCode::FAILURE
    }
}
