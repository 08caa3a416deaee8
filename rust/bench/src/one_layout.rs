//! Measures every case and every call in this program, which is of one layout, and prints a line for each.

use crate::cases::{cases, Case};
use crate::figure::Figure;
use crate::measure::{measure, Measured};
use crate::single_calls::{singles, Single};
use differential::calls::{Call, BOTH};
use rithennaw::TURNS_MAX;

/// Calls in a row for a time of a single one.
pub const REPEATS: u32 = 500;

/// Prints the figures of all cases, then those of all calls.
pub fn print() -> Result<(), String> {
    for case in cases() {
        println!("{}", measure_case(&case, TURNS_MAX)?);
    }
    for single in singles() {
        println!("{}", measure_single(&single)?);
    }
    Ok(())
}

fn measure_case(case: &Case, turns: u64) -> Result<Figure, String> {
    let measured =
        measure(BOTH, Call::Turns(turns), &case.image, 1).map_err(|fault| format!("{}: {fault}", case.name))?;
    let mail = case.check(turns, &measured.answer, &measured.written)?;
    Ok(figure([mail as u64, measured.answer.busy], &measured))
}

fn measure_single(single: &Single) -> Result<Figure, String> {
    let measured = measure(BOTH, single.call, &single.input, REPEATS)
        .map_err(|fault| format!("{}: {fault}", single.input_name))?;
    Ok(figure([single.input.len() as u64, measured.answer.length as u64], &measured))
}

fn figure(facts: [u64; 2], measured: &Measured) -> Figure {
    Figure { facts, times: [measured.monitor, measured.reference].map(|time| time.as_nanos() as u64) }
}

#[cfg(test)]
mod tests {
    use super::measure_case;
    use crate::cases::cases;

    /// The ring's round has seven instructions, and its mailboxes are empty in a part of it: after so many turns each
    /// task is where it is after the whole run.
    const SHORT: u64 = 16 * (62_500 % 7 + 7 * 140);

    #[test]
    fn every_case_holds_what_it_says_in_a_short_run() {
        let cases = cases();
        assert_eq!(cases.len(), 13);
        for case in cases {
            let figure = measure_case(&case, SHORT).unwrap();
            assert!(figure.times.iter().all(|&time| time > 0), "{}", case.name);
        }
    }

    #[test]
    fn a_case_that_says_otherwise_is_a_fault() {
        let mut case = cases().pop().unwrap();
        case.mail = 1..=1;
        assert!(measure_case(&case, SHORT).is_err());
    }
}
