//! Prints how many instructions a turn and a call take, where valgrind is there to count them.

use crate::cases::Case;
use crate::counted::Work;
use crate::single_calls::Single;
use crate::valgrind::{self, InputFile};
use differential::calls::BOTH;
use std::path::Path;

/// The turns that are counted, as often each slot's.
const TURNS: u64 = 160_000;

/// The calls that are counted, behind as many others: memory is got in the first ones.
const CALLS: u64 = 100;

/// Prints both tables, of the program at that path, or why there are none.
pub fn print(program: &Path, cases: &[Case], singles: &[Single]) -> Result<(), String> {
    if !valgrind::is_there()? {
        println!("\nInstructions are not counted: valgrind is not on the PATH.");
        return Ok(());
    }
    print_turns(program, cases)?;
    print_calls(program, singles)
}

fn print_turns(program: &Path, cases: &[Case]) -> Result<(), String> {
    println!("\nInstructions a turn, counted by valgrind over {TURNS} turns");
    println!("{:<64} {}", "image", heads());
    for case in cases {
        let counts = extra(program, &case.image, [Work::Turns(0), Work::Turns(TURNS)])?;
        println!("{:<64} {}", case.name, columns(counts, TURNS, 2));
    }
    Ok(())
}

fn print_calls(program: &Path, singles: &[Single]) -> Result<(), String> {
    println!(
        "\nInstructions a call, counted by valgrind over {CALLS} calls; rep stos and rep movs count each repetition"
    );
    println!("{:<44} {:<18} {}", "input", "call", heads());
    for Single { input_name, input, call_name, .. } in singles {
        let works = [CALLS, 2 * CALLS].map(|number| Work::Calls { name: call_name, number });
        println!("{input_name:<44} {call_name:<18} {}", columns(extra(program, input, works)?, CALLS, 0));
    }
    Ok(())
}

fn heads() -> String {
    format!("{:>12} {:>12} {:>6}", "monitor", "reference", "ratio")
}

/// The counts for each of `number`, with so many decimals, and their ratio.
fn columns([monitor, reference]: [u64; 2], number: u64, decimals: usize) -> String {
    let [each_monitor, each_reference] = [monitor, reference].map(|count| count as f64 / number as f64);
    format!("{each_monitor:>12.decimals$} {each_reference:>12.decimals$} {:>6.2}", each_monitor / each_reference)
}

/// The instructions that the second work takes beyond the first, the monitor's and the reference's. All else that a program
/// does is in both of its counts.
fn extra(program: &Path, input: &[u8], [less, more]: [Work; 2]) -> Result<[u64; 2], String> {
    let input = InputFile::new(input)?;
    let extra = |implementation: &str| {
        let [less, more] = [less, more].map(|work| valgrind::count(program, implementation, work, &input));
        difference(less?, more?)
    };
    let [monitor, reference] = BOTH.map(|implementation| extra(implementation.name));
    Ok([monitor?, reference?])
}

/// An error where more work takes no more instructions.
fn difference(less: u64, more: u64) -> Result<u64, String> {
    more.checked_sub(less)
        .filter(|&extra| extra > 0)
        .ok_or_else(|| format!("{more} instructions after {less} for less"))
}

#[cfg(test)]
mod tests {
    use super::{columns, difference, heads};

    #[test]
    fn counts_are_divided_by_the_number() {
        assert_eq!(columns([310, 200], 100, 2), "        3.10         2.00   1.55");
        assert_eq!(columns([310, 200], 100, 0), "           3            2   1.55");
        assert_eq!(columns([310, 200], 100, 2).len(), heads().len());
    }

    #[test]
    fn more_work_that_takes_no_more_instructions_is_a_fault() {
        assert_eq!(difference(5, 7), Ok(2));
        assert!(difference(7, 7).is_err());
        assert!(difference(7, 5).is_err());
    }
}
