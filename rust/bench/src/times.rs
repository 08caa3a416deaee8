//! Prints the times of turns and of calls over all layouts, and tells which aims are missed.

use crate::cases::{self, Case};
use crate::figure::Figure;
use crate::layouts::{Layout, ROUNDS};
use crate::measure::RUNS;
use crate::one_layout::REPEATS;
use crate::single_calls::{Single, AIM};
use crate::verdict::Verdict;
use rithennaw::TURNS_MAX;

/// Prints what the times are of.
pub fn print_head(layouts: &[Layout]) {
    let names: Vec<&str> = layouts.iter().map(|layout| layout.name.as_str()).collect();
    println!("CPU time: the best of {RUNS} times in each of {ROUNDS} rounds, from the fastest layout to the slowest.");
    println!("Layouts: {}", names.join(", "));
}

/// Prints both tables; `figures` are those of the cases, then those of the calls, each in all layouts. Tells which aims are
/// missed.
pub fn print(cases: &[Case], singles: &[Single], figures: &[Vec<Figure>]) -> Vec<String> {
    let (of_cases, of_singles) = figures.split_at(cases.len());
    let mut missed = print_turns(cases, of_cases);
    missed.extend(print_calls(singles, of_singles));
    missed
}

fn print_turns(cases: &[Case], figures: &[Vec<Figure>]) -> Vec<String> {
    println!("\nNanoseconds a turn, {TURNS_MAX} turns a call");
    println!("{:<64} {:>5} {:>8} {}", "image", "mail", "busy", Verdict::heads());
    let mut missed = Vec::new();
    for (case, figures) in cases.iter().zip(figures) {
        let verdict = Verdict::new(figures, TURNS_MAX as f64, cases::AIM);
        let [mail, busy] = figures[0].facts;
        println!("{:<64} {mail:>5} {busy:>8} {}", case.name, verdict.columns());
        missed.extend(miss(&verdict, case.name));
    }
    missed
}

fn print_calls(singles: &[Single], figures: &[Vec<Figure>]) -> Vec<String> {
    println!("\nMicroseconds a call, mean of {REPEATS} calls");
    println!("{:<44} {:<18} {:>6} {:>7} {}", "input", "call", "read", "written", Verdict::heads());
    let mut missed = Vec::new();
    for (single, figures) in singles.iter().zip(figures) {
        let verdict = Verdict::new(figures, 1e3 * f64::from(REPEATS), AIM);
        let [read, written] = figures[0].facts;
        let Single { input_name, call_name, .. } = single;
        println!("{input_name:<44} {call_name:<18} {read:>6} {written:>7} {}", verdict.columns());
        missed.extend(miss(&verdict, &format!("{call_name}, {input_name}")));
    }
    missed
}

/// What is missed, with one more decimal than the tables have, so that a near miss is seen to be one.
fn miss(verdict: &Verdict, name: &str) -> Option<String> {
    (!verdict.is_met()).then(|| format!("{name} ({:.3}, and not {:.1})", verdict.ratio.most, verdict.aim))
}
