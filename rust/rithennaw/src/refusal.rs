//! The refusals: the numbers and words of the scope document and its change requests, and the sentences of
//! include/rithennaw.h.

use crate::OutOfRange;
use std::{error, fmt};

/// Makes `Refusal` of a table: number, word and sentence of each.
macro_rules! refusals {
    ($($name:ident = $number:literal, $word:literal, $text:literal;)*) => {
        /// Why a call was refused: the first rule that is broken. The numbers are those of the scope document and its change
        /// requests, and so are the words of 1 to 13; for the others the documents have none. A later edition may have more.
        #[non_exhaustive]
        #[derive(Debug, Clone, Copy, PartialEq, Eq, Hash)]
        #[repr(u8)]
        pub enum Refusal {
            $(#[doc = concat!("Number ", $number, ". ", $text)] $name = $number,)*
        }

        impl Refusal {
            /// Every refusal, in the order of the numbers, 1 first.
            pub const ALL: &'static [Refusal] = &[$(Refusal::$name),*];

            /// The word for it, such as `record length`.
            pub const fn word(self) -> &'static str {
                match self { $(Refusal::$name => $word,)* }
            }

            /// The sentence for it, as `rithennaw_refusal_text` of the C header gives it, such as `There are bytes after
            /// slot 15.`
            pub const fn text(self) -> &'static str {
                match self { $(Refusal::$name => $text,)* }
            }
        }
    };
}

refusals! {
    Observer = 1, "observer", "The label asked for is above 15.";
    TurnLimit = 2, "turn limit", "More than 1,000,000 turns were asked for.";
    Short = 3, "short", "The image ends before the last byte of the field or part being read.";
    Version = 4, "version", "The image's first byte, its version, is neither 1 nor 2.";
    ProgramLength = 5, "program length", "The program's length is no multiple of 4 from 4 to 1,024: 1 to 256 instructions.";
    Instruction = 6, "instruction", "An instruction isn't in the table, or has an operand outside it.";
    TurnSlot = 7, "turn slot", "The turn slot is above 15.";
    RecordLength = 8, "record length", "A record's length is neither 0 nor 37 + 6 * k (38 + 6 * k in version 2), k at most 64.";
    TaskField = 9, "task field", "A task's kind, label, clearance or place is out of range, its label isn't within its clearance, or slot + spare is above 15.";
    Mail = 10, "mail", "A message's label is above 15 or its sender above 16, or five or more are of one label.";
    Tail = 11, "tail", "There are bytes after slot 15.";
    Estate = 12, "estate", "A used slot lies in another task's spare.";
    Output = 13, "output", "The output is shorter than the answer.";
    PostSlot = 14, "post slot", "The slot posted to is above 15.";
    PostLabel = 15, "post label", "The label of the message posted is above 15.";
    Text = 16, "text", "The text isn't a list of lines, each a word of the table, three numbers and a line feed.";
}

impl Refusal {
    /// Its number, from 1 on.
    pub const fn number(self) -> u8 {
        self as u8
    }
}

impl TryFrom<u8> for Refusal {
    type Error = OutOfRange;

    fn try_from(number: u8) -> Result<Refusal, OutOfRange> {
        let refusal = Refusal::ALL.iter().copied().find(|refusal| refusal.number() == number);
        refusal.ok_or(OutOfRange { number, first: 1, last: Refusal::ALL.len() as u8 })
    }
}

impl fmt::Display for Refusal {
    fn fmt(&self, f: &mut fmt::Formatter<'_>) -> fmt::Result {
        write!(f, "refused {} ({}): {}", self.number(), self.word(), self.text())
    }
}

impl error::Error for Refusal {}
