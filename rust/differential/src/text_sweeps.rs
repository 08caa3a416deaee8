//! Sweeps: every place of a text damaged, numbers of every kind in every place of every instruction, every byte of a
//! program next to a limit, and as many lines as make a counter wrap.

use crate::compare::Comparison;
use crate::images::LABELS;
use crate::instructions::legal;
use crate::listings::{assemble, disassemble};
use crate::numbers;
use crate::programs::{self, PROGRAM_MAX};
use crate::report::{Fact, Outcome};
use crate::rng::Rng;
use crate::text_cases::accepted;
use crate::texts::{Line, Text};
use layout::instructions::{Row, END, SANDBOX, TABLE};
use layout::Instruction;

/// What is put into a text: what parts fields and lines, digits and letters and what stands beside them among the
/// bytes, and bytes that are no ASCII, some of which are such others but for their highest bit.
const BYTES: [u8; 29] = [
    b' ', b'\n', b'\r', b'\t', 0, b'0', b'1', b'2', b'5', b'6', b'9', b'/', b':', b'-', b'+', b'a', b'd', b'e', b'n',
    b's', b'z', b'`', b'{', 127, 128, 138, 160, 176, 255,
];

/// The first code behind the table.
const NO_CODE: u8 = TABLE.len() as u8;

/// All sweeps.
pub fn run(comparison: &mut Comparison, rng: &mut Rng) -> Outcome {
    accepted(comparison, rng, &[[SANDBOX, 7, 255, 15]; PROGRAM_MAX])?;
    counts(comparison, rng)?;
    let n = rng.between(2, 8);
    let program = programs::of_length(rng, n, &LABELS);
    each_place(comparison, rng, &Text::of(&program).bytes())?;
    each_byte(comparison, rng, &program.concat())?;
    for row in TABLE {
        let alone = instruction(rng, row, 1);
        each_place(comparison, rng, &Line::of(alone).bytes())?;
        each_byte(comparison, rng, &alone)?;
        (0..3).try_for_each(|which| each_number(comparison, rng, row, which))?;
    }
    Ok(())
}

/// A legal instruction of that row in a program of `n`.
fn instruction(rng: &mut Rng, row: &Row, n: usize) -> Instruction {
    let [a, b, c] = row.operands.map(|operand| legal(rng, operand, n));
    [row.code, a, b, c]
}

/// Texts and programs of as many instructions as there may be, of some more or less, and of so many that once the
/// number of lines or of bytes is cut there are few.
fn counts(comparison: &mut Comparison, rng: &mut Rng) -> Outcome {
    let few = rng.between(1, 256);
    for n in [0, 1, 255, 256, 257, 258, 512 + few, 16_384 + few, 65_536 + few] {
        let row = &TABLE[rng.below(TABLE.len())];
        let alone = instruction(rng, row, 1);
        assemble(comparison, rng, &Line::of(alone).bytes().repeat(n))?;
        let program = alone.repeat(n + 1);
        for length in (4 * n).saturating_sub(2)..=4 * n + 2 {
            disassemble(comparison, rng, &program[..length])?;
        }
    }
    Ok(())
}

/// The text cut at each place, and with each byte left out, doubled, replaced by others and behind others.
fn each_place(comparison: &mut Comparison, rng: &mut Rng, text: &[u8]) -> Outcome {
    for at in 0..=text.len() {
        let (front, back) = text.split_at(at);
        let mut changed = vec![front.to_vec()];
        changed.extend(BYTES.map(|byte| [front, &[byte], back].concat()));
        if let Some((&byte, rest)) = back.split_first() {
            let near = [byte ^ 32, byte ^ 128, byte.wrapping_add(1), byte.wrapping_sub(1)];
            changed.extend([[front, rest].concat(), [front, &[byte], back].concat()]);
            changed.extend(BYTES.iter().chain(&near).map(|&other| [front, &[other], rest].concat()));
        }
        for text in changed {
            assemble(comparison, rng, &text)?;
        }
    }
    Ok(())
}

/// A line of that row with numbers in one place that may be legal, and with others that are not: above 255, behind
/// zeros, and long.
fn each_number(comparison: &mut Comparison, rng: &mut Rng, row: &Row, which: usize) -> Outcome {
    let n = rng.between(1, 20);
    let ahead = Line::of([END, 0, 0, 0]).bytes().repeat(n - 1);
    let mut line = Line::of(instruction(rng, row, n));
    let mut with = |comparison: &mut Comparison, rng: &mut Rng, number: &str| {
        line.fields[1 + which] = number.into();
        assemble(comparison, rng, &[&ahead[..], &line.bytes()].concat())
    };
    let byte = legal(rng, row.operands[which], n);
    for number in numbers::cut_to(byte) {
        if with(comparison, rng, &number)? == 6 {
            comparison.tally.fact(Fact::LegalOnceCut);
        }
    }
    for _ in 0..10 {
        let zeros = numbers::behind_zeros(rng, &byte.to_string());
        if with(comparison, rng, &zeros)? == 16 {
            comparison.tally.fact(Fact::LegalBehindZeros);
        }
    }
    let small = (0..=260).map(|number| number.to_string());
    for number in small.chain(numbers::beside_cut()).chain(numbers::of_each_length(rng)) {
        with(comparison, rng, &number)?;
    }
    Ok(())
}

/// The program cut at each place, and with each byte in turn next to a limit.
fn each_byte(comparison: &mut Comparison, rng: &mut Rng, program: &[u8]) -> Outcome {
    let n = (program.len() / 4) as u8;
    for (at, &byte) in program.iter().enumerate() {
        disassemble(comparison, rng, &program[..at])?;
        for value in [0, 1, 7, 8, 9, 10, 12, 13, NO_CODE, 15, 16, 17, 99, 100, 255, byte ^ 128, n - 1, n, n + 1] {
            let mut changed = program.to_vec();
            changed[at] = value;
            disassemble(comparison, rng, &changed)?;
        }
    }
    Ok(())
}
