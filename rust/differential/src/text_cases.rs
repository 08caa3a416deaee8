//! What is compared for a seed of the two calls that read no image: a program and its text, each turned into the other,
//! and texts and programs that are damaged in many ways.

use crate::calls::Call;
use crate::cases;
use crate::compare::Comparison;
use crate::damage::{self, FAULTS};
use crate::images::LABELS;
use crate::listings::{assemble, disassemble, turned};
use crate::programs;
use crate::report::Outcome;
use crate::rng::Rng;
use crate::text_damage::TEXT_FAULTS;
use crate::text_sweeps;
use crate::texts::Text;
use layout::{Image, Instruction};

/// Seeds from one sweep to the next.
const SWEEP_EVERY: u64 = 256;

/// The most lines of a text that is damaged, and the most bytes of a program: some more than each may have.
const LINES_MAX: usize = 300;
const BYTES_MAX: usize = rithennaw::PROGRAM_MAX + 8;

/// Compares everything of these calls that belongs to a seed.
pub fn run(comparison: &mut Comparison, seed: u64) -> Outcome {
    comparison.begin(seed);
    // Other random numbers than those that the seed's image is made of.
    let rng = &mut Rng::new(seed ^ (1 << 63));
    let program = programs::program(rng, &LABELS);
    accepted(comparison, rng, &program)?;
    damaged_texts(comparison, rng, seed)?;
    damaged_programs(comparison, rng, seed)?;
    if seed % SWEEP_EVERY == 0 {
        text_sweeps::run(comparison, rng)?;
    }
    Ok(())
}

/// A program and its text, each turned into the other with every output.
pub fn accepted(comparison: &mut Comparison, rng: &mut Rng, program: &[Instruction]) -> Outcome {
    let (text, program) = (Text::of(program).bytes(), program.concat());
    turned(comparison, &text, &program)?;
    cases::outputs(comparison, rng, Call::Assemble, &text, program.len())?;
    cases::outputs(comparison, rng, Call::Disassemble, &program, text.len())
}

/// A text of some lines, seeds going through their numbers: as it is, with a fault, each in its turn, with others
/// beside it, and with random changes.
fn damaged_texts(comparison: &mut Comparison, rng: &mut Rng, seed: u64) -> Outcome {
    let text = Text::of(&of_length(rng, (seed % (LINES_MAX as u64 + 1)) as usize));
    assemble(comparison, rng, &text.bytes())?;
    let fault = &TEXT_FAULTS[(seed % TEXT_FAULTS.len() as u64) as usize];
    for others in 0..=3 {
        let mut text = text.clone();
        (fault.apply)(rng, &mut text);
        for _ in 0..others {
            let other = &TEXT_FAULTS[rng.below(TEXT_FAULTS.len())];
            (other.apply)(rng, &mut text);
        }
        assemble(comparison, rng, &text.bytes())?;
    }
    let mut bytes = text.bytes();
    damage::flip(rng, &mut bytes);
    assemble(comparison, rng, &bytes)?;
    Ok(())
}

/// A program of some bytes, seeds going through their numbers: as it is, with a wrong code or operand, with random
/// changes; and random bytes.
fn damaged_programs(comparison: &mut Comparison, rng: &mut Rng, seed: u64) -> Outcome {
    let length = (seed % (BYTES_MAX as u64 + 1)) as usize;
    let mut image = Image::new(of_length(rng, length.div_ceil(4).max(1)));
    let mut bytes = image.program.concat();
    disassemble(comparison, rng, &bytes[..length])?;
    damage::flip(rng, &mut bytes);
    disassemble(comparison, rng, &bytes[..length])?;
    for fault in FAULTS.iter().filter(|fault| fault.number == 6) {
        (fault.apply)(rng, &mut image);
        disassemble(comparison, rng, &image.program.concat()[..length])?;
    }
    rng.fill(&mut bytes);
    disassemble(comparison, rng, &bytes[..length])
}

/// A program of that many instructions, legal where it is not too short or too long.
fn of_length(rng: &mut Rng, n: usize) -> Vec<Instruction> {
    match n {
        0 => Vec::new(),
        _ => programs::of_length(rng, n, &LABELS),
    }
}
