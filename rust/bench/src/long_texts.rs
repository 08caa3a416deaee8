//! Times the writer on long texts, and sees that its time grows with their length and no faster.

use crate::measure::timed;
use crate::texts::{Kind, KINDS};
use differential::calls::{Answer, Call, Implementation, MONITOR, REFERENCE};
use std::time::Duration;

/// The lengths of the texts, in bytes. The reference is timed with the first.
const LENGTHS: [usize; 3] = [25_000_000, 50_000_000, 100_000_000];

/// How often each is timed; the best time counts.
const RUNS: usize = 3;

/// The most that the time of a byte may grow from the first text to the last, which is four times as long: it would be
/// four times as much if time grew as the square of the length.
const GROWTH_MAX: f64 = 2.0;

/// Prints a line for each kind and length.
pub fn print() -> Result<(), String> {
    println!();
    println!(
        "Milliseconds of CPU time a call of assemble with a text that is refused at its end, best of {RUNS} calls;"
    );
    println!("growth is the time of a byte as a multiple of that in the first text of the kind");
    println!(
        "{:<44} {:>6} {:>9} {:>8} {:>8} {:>7} {:>6} {:>10} {:>6}",
        "text", "number", "read", "monitor", "MB/s", "ns/byte", "growth", "reference", "ratio"
    );
    KINDS.iter().try_for_each(|kind| print_kind(kind).map_err(|fault| format!("{}: {fault}", kind.name)))
}

fn print_kind(kind: &Kind) -> Result<(), String> {
    let mut first = None;
    for length in LENGTHS {
        let text = (kind.make)(length);
        let time = best(MONITOR, &text, kind.number)?;
        let each = time.as_secs_f64() * 1e9 / length as f64;
        let growth = growth(*first.get_or_insert(each), each)?;
        let Kind { name, number, .. } = kind;
        let (monitor, rate) = (time.as_secs_f64() * 1e3, 1e3 / each);
        print!("{name:<44} {number:>6} {length:>9} {monitor:>8.1} {rate:>8.0} {each:>7.2} {growth:>6.2}");
        if length == LENGTHS[0] {
            let reference = best(REFERENCE, &text, kind.number)?.as_secs_f64() * 1e3;
            print!(" {reference:>10.1} {:>6.2}", monitor / reference);
        }
        println!();
    }
    Ok(())
}

/// The best time for a text that is refused with that number; an error if anything else is told or written.
fn best(implementation: Implementation, text: &[u8], number: u8) -> Result<Duration, String> {
    let mut best = Duration::MAX;
    for _ in 0..RUNS {
        let (time, (answer, out)) = timed(implementation, Call::Assemble, text, 1);
        if answer != Answer::refused(number) || out.iter().any(|&byte| byte != 0) {
            return Err(format!("the {} tells {answer:?} and not number {number}, or writes", implementation.name));
        }
        best = best.min(time);
    }
    Ok(best)
}

/// The time of a byte as a multiple of the first one; an error if it is too large.
fn growth(first: f64, each: f64) -> Result<f64, String> {
    let growth = each / first;
    if growth <= GROWTH_MAX {
        Ok(growth)
    } else {
        Err(format!("a byte takes {growth:.2} times as long in a longer text"))
    }
}

#[cfg(test)]
mod tests {
    use super::{best, growth, LENGTHS};
    use crate::texts::KINDS;
    use differential::calls::{Answer, Implementation, BOTH, REFERENCE};

    /// Twenty times every word, more lines than a program may have.
    const LENGTH: usize = 20 * 160;

    #[test]
    fn texts_have_their_length_and_are_refused_with_their_number() {
        for kind in &KINDS {
            let text = (kind.make)(LENGTH);
            assert_eq!(text.len(), LENGTH, "{}", kind.name);
            for implementation in BOTH {
                assert!(best(implementation, &text, kind.number).is_ok(), "{}", kind.name);
                assert!(best(implementation, &text, kind.number + 1).is_err(), "{}", kind.name);
            }
        }
        assert!(LENGTHS.iter().all(|length| length % 160 == 0));
    }

    #[test]
    fn a_refused_call_that_writes_is_a_fault() {
        let call = |_, _: &[u8], out: &mut [u8]| {
            out[0] = 1;
            Answer::refused(5)
        };
        assert!(best(Implementation { call, ..REFERENCE }, b"", 5).is_err());
        assert!(best(REFERENCE, b"", 5).is_ok());
    }

    #[test]
    fn time_that_grows_as_the_square_of_the_length_is_a_fault() {
        assert!(growth(1.5, 2.0).is_ok());
        assert!(growth(1.5, 6.0).is_err());
        assert!(growth(0.0, 0.0).is_err());
    }
}
