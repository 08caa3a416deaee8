//! Programs as people type them: a text by its lines and fields, each of which may be anything.

use layout::instructions::TABLE;
use layout::Instruction;

/// A line: its fields, with single spaces between them, and what ends it.
#[derive(Debug, Clone)]
pub struct Line {
    pub fields: Vec<Vec<u8>>,
    pub end: Vec<u8>,
}

/// A text by its lines.
#[derive(Debug, Clone)]
pub struct Text(pub Vec<Line>);

impl Line {
    /// The line of an instruction whose code is in the table.
    pub fn of([code, operands @ ..]: Instruction) -> Line {
        let word = TABLE[usize::from(code)].word.as_bytes().to_vec();
        let numbers = operands.iter().map(|operand| operand.to_string().into_bytes());
        Line { fields: [word].into_iter().chain(numbers).collect(), end: b"\n".to_vec() }
    }

    /// The bytes of the line.
    pub fn bytes(&self) -> Vec<u8> {
        [self.fields.join(&b' '), self.end.clone()].concat()
    }
}

impl Text {
    /// The text of a program whose codes are in the table.
    pub fn of(program: &[Instruction]) -> Text {
        Text(program.iter().copied().map(Line::of).collect())
    }

    /// The bytes of the text.
    pub fn bytes(&self) -> Vec<u8> {
        self.0.iter().map(Line::bytes).collect::<Vec<_>>().concat()
    }
}
