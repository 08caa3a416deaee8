//! The numbers a caller may receive for a refused call.

/// Why a call is refused; the value is the number in documents 01 and 02.
#[derive(Debug, Clone, Copy, PartialEq, Eq)]
pub enum Refusal {
    /// The label asked for is above 15.
    Observer = 1,
    /// More than 1,000,000 turns.
    TurnLimit = 2,
    /// The image ends before the last byte of the field or part being read.
    Short = 3,
    /// The first byte is neither 1 nor 2.
    Version = 4,
    /// The program length is no multiple of 4 from 4 to 1,024; for a text, no line or more than 256.
    ProgramLength = 5,
    /// An instruction isn't in the table, or an operand is outside it.
    Instruction = 6,
    /// The turn slot is above 15.
    TurnSlot = 7,
    /// A record length is neither 0 nor 37 + 6 × k (38 + 6 × k in version 2), k at most 64.
    RecordLength = 8,
    /// Kind, label, clearance or place is out of range, the label is no subset of the clearance, or slot + spare is
    /// above 15.
    TaskField = 9,
    /// A message's label is above 15 or its sender above 16, or five or more are of one label.
    Mail = 10,
    /// Bytes after slot 15; for the program `slotsheet`, more input than its buffer holds.
    Tail = 11,
    /// A used slot lies in another task's spare.
    Estate = 12,
    /// The output is shorter than the answer.
    Output = 13,
    /// The slot to post to is above 15.
    PostSlot = 14,
    /// The label of the message to post is above 15.
    PostLabel = 15,
    /// The text isn't a list of instructions.
    Text = 16,
}

impl Refusal {
    /// The number in documents 01 and 02.
    pub fn number(self) -> u8 {
        self as u8
    }
}
