//! Prints how long the monitor's calls take beside those of the reference, in programs of several layouts; fails where the
//! two differ.
//!
//! bench [NAME=PROGRAM...]: measures with these programs, which are this one in other layouts, or with itself alone.
//! bench measure: what each of them is started with.
//! bench count IMPLEMENTATION CALL NUMBER: what the first is started with below valgrind, its input on standard input.

mod cases;
mod clock;
mod counted;
mod figure;
mod full_mailboxes;
mod images;
mod instructions;
mod layouts;
mod light_mailboxes;
mod long_texts;
mod measure;
mod one_layout;
mod registers;
mod single_calls;
mod spread;
#[cfg(test)]
mod tally;
mod texts;
mod times;
mod valgrind;
mod verdict;

use counted::COUNT;
use layouts::{Layout, MEASURE};
use std::process::ExitCode;

fn main() -> ExitCode {
    let arguments: Vec<String> = std::env::args().skip(1).collect();
    let words: Vec<&str> = arguments.iter().map(String::as_str).collect();
    let done = match words[..] {
        [MEASURE] => one_layout::print(),
        [COUNT, implementation, call, number] => counted::run(implementation, call, number),
        [] => itself().and_then(|layout| print_all(&[layout])),
        _ => words.iter().map(|word| word.parse()).collect::<Result<Vec<_>, _>>().and_then(|all| print_all(&all)),
    };
    match done {
        Ok(()) => ExitCode::SUCCESS,
        Err(fault) => {
            eprintln!("bench: {fault}");
            ExitCode::FAILURE
        }
    }
}

/// This program, as the only layout.
fn itself() -> Result<Layout, String> {
    let program = std::env::current_exe().map_err(|error| format!("this program has no path: {error}"))?;
    Ok(Layout { name: "this one".into(), program })
}

fn print_all(layouts: &[Layout]) -> Result<(), String> {
    let (cases, singles) = (cases::cases(), single_calls::singles());
    times::print_head(layouts);
    let figures = layouts::measure(layouts, cases.len() + singles.len())?;
    let missed = times::print(&cases, &singles, &figures);
    instructions::print(&layouts[0].program, &cases, &singles)?;
    long_texts::print()?;
    match missed.len() {
        0 => println!("\nEvery aim is met."),
        count => println!("\nAims missed, {count}: {}", missed.join("; ")),
    }
    Ok(())
}
