//! The scope document's table of instructions, with the one of U4: for each code its word and its operands, once for all
//! packages that write programs. The reference has its own.

use Operand::{Any, Label, Nothing, Register, Size, Target};

/// What an operand byte may be.
#[derive(Debug, Clone, Copy, PartialEq, Eq)]
pub enum Operand {
    Nothing,
    Any,
    Register,
    Target,
    Label,
    Size,
}

/// An instruction of the table.
#[derive(Debug, Clone, Copy, PartialEq, Eq)]
pub struct Row {
    pub code: u8,
    pub word: &'static str,
    /// What a, b and c may be.
    pub operands: [Operand; 3],
}

/// A name for each code, and all rows.
macro_rules! table {
    ($($name:ident = $code:literal $word:literal $a:ident $b:ident $c:ident;)*) => {
        $(pub const $name: u8 = $code;)*
        /// The rows; a row's code is its index.
        pub const TABLE: &[Row] = &[$(Row { code: $code, word: $word, operands: [$a, $b, $c] }),*];
    };
}

table! {
    END = 0x00 "end" Nothing Nothing Nothing;
    SET = 0x01 "set" Register Any Any;
    COPY = 0x02 "copy" Register Register Nothing;
    ADD = 0x03 "add" Register Register Register;
    SUBTRACT = 0x04 "subtract" Register Register Register;
    GO = 0x05 "go" Target Nothing Nothing;
    ZERO = 0x06 "zero" Register Target Nothing;
    RAISE = 0x07 "raise" Label Nothing Nothing;
    SEND = 0x08 "send" Register Label Register;
    TAKE = 0x09 "take" Register Register Nothing;
    POLL = 0x0a "poll" Register Register Target;
    SANDBOX = 0x0b "sandbox" Register Target Size;
    SELF = 0x0c "self" Register Register Nothing;
    COUNT = 0x0d "count" Register Nothing Nothing;
}

impl Operand {
    /// The first and the last byte that is legal in a program of `n` instructions.
    pub fn range(self, n: usize) -> (u8, u8) {
        match self {
            Nothing => (0, 0),
            Any => (0, 255),
            Register => (0, 7),
            Target => (0, (n - 1) as u8),
            Label => (0, 15),
            Size => (1, 15),
        }
    }
}

#[cfg(test)]
mod tests {
    use super::TABLE;

    /// Written out from 01's table and U4: what reads `TABLE` would follow a wrong word or code.
    #[test]
    fn codes_and_words_are_those_of_the_papers_in_their_order() {
        let rows: Vec<(u8, &str)> = TABLE.iter().map(|row| (row.code, row.word)).collect();
        let should = [
            (0x00, "end"),
            (0x01, "set"),
            (0x02, "copy"),
            (0x03, "add"),
            (0x04, "subtract"),
            (0x05, "go"),
            (0x06, "zero"),
            (0x07, "raise"),
            (0x08, "send"),
            (0x09, "take"),
            (0x0a, "poll"),
            (0x0b, "sandbox"),
            (0x0c, "self"),
            (0x0d, "count"),
        ];
        assert_eq!(rows, should);
    }
}
