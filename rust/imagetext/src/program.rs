//! The program: instructions, and the names of places in it. Each instruction is typed out for the library, which makes the
//! bytes or refuses; here the line that it refuses is found.

use crate::line::{Fault, Line};
use layout::instructions::{Operand, Row, TABLE};
use rithennaw::Refusal;
use std::collections::HashMap;

/// Names of places in the program: `NAME:` names the place of the instruction that follows.
#[derive(Default)]
pub struct Names<'a>(HashMap<&'a str, usize>);

impl<'a> Names<'a> {
    pub fn read(body: &[Line<'a>]) -> Result<Names<'a>, Fault> {
        let mut names = HashMap::new();
        let mut place = 0;
        for line in body {
            match named(line) {
                None => place += 1,
                Some(name) if !is_name(name) => {
                    return Err(line.fault(format!("`{name}` is not a name: a letter, then letters, digits, - and _")));
                }
                Some(name) => {
                    if names.insert(name, place).is_some() {
                        return Err(line.fault(format!("the name `{name}` is given twice")));
                    }
                }
            }
        }
        Ok(Names(names))
    }

    /// A decimal number, or the place that a name stands for, in decimal.
    pub fn decimal(&self, line: &Line, word: &str) -> Result<String, Fault> {
        if !is_name(word) {
            return line.decimal(word).map(str::to_string);
        }
        let place = self.0.get(word).ok_or_else(|| line.fault(format!("no place has the name `{word}`")))?;
        Ok(place.to_string())
    }
}

/// An instruction: its row of the table, and its operands in decimal.
struct Typed<'a> {
    line: &'a Line<'a>,
    row: &'static Row,
    operands: [String; 3],
}

/// The bytes of the program that stands below its head.
pub fn program(head: &Line, body: &[Line], names: &Names) -> Result<Vec<u8>, Fault> {
    let lines = body.iter().filter(|line| named(line).is_none());
    let typed: Vec<Typed> = lines.map(|line| Typed::read(line, names)).collect::<Result<_, _>>()?;
    let text: String = typed.iter().map(Typed::text).collect();
    rithennaw::assemble(text).map_err(|refusal| {
        let fault = match refusal {
            Refusal::ProgramLength => {
                Some(head.fault(format!("a program has 1 to 256 instructions, not {}", typed.len())))
            }
            Refusal::Instruction => typed.iter().find_map(|instruction| instruction.fault(typed.len())),
            _ => None,
        };
        fault.unwrap_or_else(|| head.fault(refusal.to_string()))
    })
}

impl<'a> Typed<'a> {
    fn read(line: &'a Line<'a>, names: &Names) -> Result<Typed<'a>, Fault> {
        let word = line.words[0];
        let row = TABLE
            .iter()
            .find(|row| row.word == word)
            .ok_or_else(|| line.fault(format!("`{word}` is not an instruction")))?;
        let [_, a, b, c] = line.words[..] else {
            return Err(line.fault(format!("`{word}` takes three operands, not {}", line.words.len() - 1)));
        };
        let operands = [names.decimal(line, a)?, names.decimal(line, b)?, names.decimal(line, c)?];
        Ok(Typed { line, row, operands })
    }

    /// The line as the library takes it.
    fn text(&self) -> String {
        let [a, b, c] = &self.operands;
        format!("{} {a} {b} {c}\n", self.row.word)
    }

    /// The first operand outside the table, in a program of `n` instructions.
    fn fault(&self, n: usize) -> Option<Fault> {
        let mut operands = ["first", "second", "third"].into_iter().zip(self.row.operands).zip(&self.operands);
        let ((nth, operand), number) = operands.find(|((_, operand), number)| !admits(*operand, n, number))?;
        let (word, admitted) = (self.row.word, admitted(operand, n));
        Some(self.line.fault(format!("`{word}` takes {admitted} as its {nth} operand, not {number}")))
    }
}

/// Whether a number, of any size, may be the operand in a program of `n` instructions.
fn admits(operand: Operand, n: usize, number: &str) -> bool {
    let (first, last) = operand.range(n);
    number.parse().is_ok_and(|number: u8| (first..=last).contains(&number))
}

/// What the operand may be, in words.
fn admitted(operand: Operand, n: usize) -> String {
    let (first, last) = operand.range(n);
    let what = match operand {
        Operand::Nothing => return "0".into(),
        Operand::Any => "a byte",
        Operand::Register => "a register",
        Operand::Target => "a place",
        Operand::Label => "a label",
        Operand::Size => "a size",
    };
    format!("{what}, {first} to {last},")
}

/// The name that a line `NAME:` gives.
fn named<'a>(line: &Line<'a>) -> Option<&'a str> {
    match line.words[..] {
        [word] => word.strip_suffix(':'),
        _ => None,
    }
}

fn is_name(word: &str) -> bool {
    word.starts_with(|c: char| c.is_ascii_alphabetic())
        && word.bytes().all(|byte| byte.is_ascii_alphanumeric() || byte == b'-' || byte == b'_')
}
