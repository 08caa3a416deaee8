//! A text and its program, turned into each other by two implementations.

use crate::calls::Call;
use crate::compare::{Comparison, ROOM_MAX};
use crate::report::{Fact, Mismatch, Outcome};
use crate::rng::Rng;
use rithennaw::{LISTING_MAX, PROGRAM_MAX};

/// The fault where an accepted text or program is not what the answer is turned back into.
const NOT_TURNED: &str = "a text and its program are not turned into each other";

/// Has both turn this text into this program, and back.
pub fn turned(comparison: &mut Comparison, text: &[u8], program: &[u8]) -> Outcome {
    comparison.give(Call::Assemble, text, program, NOT_TURNED)?;
    note_lines(comparison, text, 0);
    comparison.give(Call::Disassemble, program, text, NOT_TURNED)
}

/// Has both turn a text into its program, with an output that may be too short, and the program back. Gives the number.
pub fn assemble(comparison: &mut Comparison, rng: &mut Rng, text: &[u8]) -> Result<u8, Mismatch> {
    let agreed = comparison.call(Call::Assemble, text, room(rng, PROGRAM_MAX))?;
    let number = agreed.answer.number;
    if number == 0 {
        comparison.give(Call::Disassemble, &agreed.bytes, text, NOT_TURNED)?;
        comparison.tally.fact(Fact::TextGivenBack);
    }
    note_lines(comparison, text, number);
    Ok(number)
}

/// Counts a text with a number of lines that is next to a limit, if its number shows that it was taken for such a one.
fn note_lines(comparison: &mut Comparison, text: &[u8], number: u8) {
    let fact = match (text.iter().filter(|&&byte| byte == b'\n').count(), number) {
        (0, 5) => Fact::NoLine,
        (256, 0) => Fact::Lines256,
        (257, 5) => Fact::Lines257,
        _ => return,
    };
    comparison.tally.fact(fact);
}

/// Has both turn a program into its text, with an output that may be too short, and the text back.
pub fn disassemble(comparison: &mut Comparison, rng: &mut Rng, program: &[u8]) -> Outcome {
    let agreed = comparison.call(Call::Disassemble, program, room(rng, LISTING_MAX))?;
    if agreed.answer.number == 0 {
        comparison.give(Call::Assemble, &agreed.bytes, program, NOT_TURNED)?;
        comparison.tally.fact(Fact::ProgramGivenBack);
    }
    Ok(())
}

/// The length of an output: just enough for the longest answer, more than that, or hardly enough for any.
fn room(rng: &mut Rng, enough: usize) -> usize {
    match rng.below(4) {
        0 => rng.below(20),
        1 => ROOM_MAX,
        _ => enough,
    }
}
