//! Programs as people type them: the writer turns such a text into a program, the lister turns it back.

use crate::instruction::Instruction;
use crate::read::{check_program_length, decode_program};
use crate::refusal::Refusal;

/// A line of a list: the code of its word, then a, b and c as they are typed, since their digits may be many.
struct Line<'a> {
    code: u8,
    numbers: [&'a str; 3],
}

/// The bytes of the program that a text lists.
pub fn assemble(text: &[u8]) -> Result<Vec<u8>, Refusal> {
    let lines = read_lines(text).ok_or(Refusal::Text)?;
    check_program_length(lines.len() * Instruction::LENGTH)?;
    let instructions: Option<Vec<_>> = lines.iter().map(Line::bytes).collect();
    let program = instructions.ok_or(Refusal::Instruction)?.concat();
    decode_program(&program)?;
    Ok(program)
}

/// The text that lists a program.
pub fn disassemble(program: &[u8]) -> Result<String, Refusal> {
    check_program_length(program.len())?;
    decode_program(program)?;
    let text: Option<String> = program.chunks_exact(Instruction::LENGTH).map(list).collect();
    text.ok_or(Refusal::Instruction)
}

/// The lines of a text, if it is a list of instructions; operands are judged later.
fn read_lines(text: &[u8]) -> Option<Vec<Line<'_>>> {
    // Words, digits, spaces and line feeds are ASCII, so a list is always UTF-8.
    let text = std::str::from_utf8(text).ok()?;
    text.split_inclusive('\n').map(|line| Line::read(line.strip_suffix('\n')?)).collect()
}

impl<'a> Line<'a> {
    /// A line taken apart; its line feed is gone already.
    fn read(line: &'a str) -> Option<Line<'a>> {
        let fields: Vec<&str> = line.split(' ').collect();
        let [word, numbers @ ..] = <[&str; 4]>::try_from(fields).ok()?;
        let code = Instruction::code(word)?;
        numbers.into_iter().all(is_number).then_some(Line { code, numbers })
    }

    /// The four bytes of the instruction, if no number is above 255.
    fn bytes(&self) -> Option<[u8; Instruction::LENGTH]> {
        // Parsing digits as a `u8` fails above 255 alone, however many they are.
        let [a, b, c] = self.numbers.map(|number| number.parse().ok());
        Some([self.code, a?, b?, c?])
    }
}

/// Whether a field is a number in decimal without leading zeros, of any size.
fn is_number(field: &str) -> bool {
    let digits = !field.is_empty() && field.bytes().all(|byte| byte.is_ascii_digit());
    digits && (field == "0" || !field.starts_with('0'))
}

/// The line of an instruction's four bytes, if its code is in the table.
fn list(instruction: &[u8]) -> Option<String> {
    let &[code, a, b, c] = instruction else { return None };
    let word = Instruction::word(code)?;
    Some(format!("{word} {a} {b} {c}\n"))
}
