//! The fourteen instructions, their words and how four bytes are decoded into one.

use crate::label::Label;

/// A register number, 0 to 7.
#[derive(Debug, Clone, Copy, PartialEq, Eq)]
pub struct Register(u8);

impl Register {
    /// How many registers a task has.
    pub const COUNT: usize = 8;

    fn new(number: u8) -> Option<Register> {
        (usize::from(number) < Register::COUNT).then_some(Register(number))
    }

    /// Register 0, where a new task finds its parent's slot.
    pub const ZERO: Register = Register(0);

    /// The register's number as an index below `Register::COUNT`.
    pub fn index(self) -> usize {
        usize::from(self.0)
    }
}

/// The index of an instruction of the program at hand.
pub type Target = u8;

/// An instruction with its own operands; `Own` is the instruction `self`, a reserved word here.
#[derive(Debug, Clone, Copy, PartialEq, Eq)]
pub enum Instruction {
    End,
    Set { to: Register, value: u16 },
    Copy { to: Register, from: Register },
    Add { to: Register, left: Register, right: Register },
    Subtract { to: Register, left: Register, right: Register },
    Go { target: Target },
    Zero { tested: Register, target: Target },
    Raise { label: Label },
    Send { to: Register, label: Label, value: Register },
    Take { value: Register, sender: Register },
    Poll { value: Register, sender: Register, otherwise: Target },
    Sandbox { slot: Register, start: Target, size: u8 },
    Own { label: Register, slot: Register },
    Count { to: Register },
}

/// The words of the instructions, each at the index that is its code.
const WORDS: [&str; 14] = [
    "end", "set", "copy", "add", "subtract", "go", "zero", "raise", "send", "take", "poll", "sandbox", "self", "count",
];

impl Instruction {
    /// How many bytes hold an instruction.
    pub const LENGTH: usize = 4;

    /// The instruction in four bytes of a program of `count` instructions.
    pub fn decode(bytes: [u8; Instruction::LENGTH], count: usize) -> Option<Instruction> {
        use Instruction::*;
        let register = Register::new;
        let target = |byte: u8| (usize::from(byte) < count).then_some(byte);
        Some(match bytes {
            [0x00, 0, 0, 0] => End,
            [0x01, a, b, c] => Set { to: register(a)?, value: u16::from_be_bytes([b, c]) },
            [0x02, a, b, 0] => Copy { to: register(a)?, from: register(b)? },
            [0x03, a, b, c] => Add { to: register(a)?, left: register(b)?, right: register(c)? },
            [0x04, a, b, c] => Subtract { to: register(a)?, left: register(b)?, right: register(c)? },
            [0x05, a, 0, 0] => Go { target: target(a)? },
            [0x06, a, b, 0] => Zero { tested: register(a)?, target: target(b)? },
            [0x07, a, 0, 0] => Raise { label: Label::new(a)? },
            [0x08, a, b, c] => Send { to: register(a)?, label: Label::new(b)?, value: register(c)? },
            [0x09, a, b, 0] => Take { value: register(a)?, sender: register(b)? },
            [0x0A, a, b, c] => Poll { value: register(a)?, sender: register(b)?, otherwise: target(c)? },
            [0x0B, a, b, c @ 1..=15] => Sandbox { slot: register(a)?, start: target(b)?, size: c },
            [0x0C, a, b, 0] => Own { label: register(a)?, slot: register(b)? },
            [0x0D, a, 0, 0] => Count { to: register(a)? },
            _ => return None,
        })
    }

    /// The code that this word stands for.
    pub fn code(word: &str) -> Option<u8> {
        (0..).zip(WORDS).find(|&(_, known)| known == word).map(|(code, _)| code)
    }

    /// The word that stands for this code.
    pub fn word(code: u8) -> Option<&'static str> {
        WORDS.get(usize::from(code)).copied()
    }
}
