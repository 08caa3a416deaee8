//! Legal programs that do something: fragments that loop, send, receive, raise and make tasks, and random instructions.

use crate::instructions::legal;
use crate::rng::Rng;
use layout::instructions::{
    Operand, ADD, COPY, COUNT, END, GO, POLL, RAISE, SANDBOX, SELF, SEND, SET, SUBTRACT, TABLE, TAKE, ZERO,
};
use layout::Instruction;

/// The longest program, in instructions.
pub const PROGRAM_MAX: usize = 256;

/// Codes by how often a random instruction has them: those that end or raise a task less often than sends and receipts.
const CODES: &[u8] = &[
    END, SET, SET, COPY, ADD, ADD, SUBTRACT, GO, GO, ZERO, ZERO, RAISE, RAISE, SEND, SEND, SEND, SEND, TAKE, TAKE,
    POLL, POLL, POLL, SANDBOX, SANDBOX, SELF, COUNT, COUNT,
];

/// A legal instruction of a program of `n`. Its labels are often of `labels` or 15, so that some sends pass and some
/// do not, and those of raises often one owner's, which clearances admit more often than all.
fn random_instruction(rng: &mut Rng, n: usize, labels: &[u8]) -> Instruction {
    let code = rng.pick(CODES);
    let [a, b, c] = TABLE[usize::from(code)].operands.map(|operand| match operand {
        Operand::Label if code == RAISE && rng.one_in(2) => owner(rng),
        Operand::Label if rng.one_in(4) => 15,
        Operand::Label if rng.one_in(2) => rng.pick(labels),
        Operand::Size if rng.one_in(2) => rng.pick(&[1, 2]),
        Operand::Any if rng.one_in(2) => rng.pick(&[0, 0, 0, 1, 5, 15, 16, 255]),
        _ => legal(rng, operand, n),
    });
    [code, a, b, c]
}

/// The label of an owner.
fn owner(rng: &mut Rng) -> u8 {
    rng.pick(&[1, 2, 4, 8])
}

/// A fragment that begins at place `at`. Register 1 has the slot to send to and register 2 a value.
fn fragment(rng: &mut Rng, at: u8, label: u8, size: u8) -> Vec<Instruction> {
    let (owner, other) = (owner(rng), owner(rng));
    match rng.below(13) {
        // Sends to every slot, and on to slots that there are not.
        0 => vec![[SET, 7, 0, 1], [SEND, 1, label, 2], [ADD, 1, 1, 7], [GO, at + 1, 0, 0]],
        // Sends back what it receives; sends its own value where there is nothing.
        1 => vec![[POLL, 3, 4, at + 3], [SEND, 4, label, 3], [GO, at, 0, 0], [SEND, 1, label, 2], [GO, at, 0, 0]],
        // Waits, adds up what it takes and answers the sum.
        2 => vec![[TAKE, 3, 4, 0], [ADD, 5, 5, 3], [SEND, 4, label, 5], [GO, at, 0, 0]],
        // Makes tasks until its spare is used up; the children go on here too.
        3 => vec![[SANDBOX, 1, at, size], [SEND, 1, label, 2], [GO, at, 0, 0]],
        // Raises its label between two sends.
        4 => vec![[SEND, 1, label, 2], [RAISE, rng.byte_below(16), 0, 0], [SEND, 1, label, 2], [GO, at, 0, 0]],
        // Sends or not, by the value that it takes.
        5 => vec![[TAKE, 3, 4, 0], [ZERO, 3, at, 0], [SEND, 1, label, 3], [GO, at, 0, 0]],
        // Counts down and then ends.
        6 => vec![[SET, 7, 0, 1], [SUBTRACT, 2, 2, 7], [ZERO, 2, at + 4, 0], [GO, at + 1, 0, 0], [END, 0, 0, 0]],
        // Tells how many messages it may receive, receives one and begins again.
        7 => vec![[COUNT, 3, 0, 0], [SEND, 1, label, 3], [POLL, 3, 4, at], [GO, at, 0, 0]],
        // Raises its label by an owner, and by another once it has received something.
        8..=9 => vec![[RAISE, owner, 0, 0], [SEND, 1, 15, 2], [POLL, 3, 4, at], [RAISE, other, 0, 0], [GO, at, 0, 0]],
        // Makes a task that raises its label by an owner, and raises its own by another.
        10..=11 => {
            vec![[SANDBOX, 1, at + 3, size], [RAISE, other, 0, 0], [GO, at, 0, 0], [RAISE, owner, 0, 0], [GO, at, 0, 0]]
        }
        // Sends its own label and slot about.
        _ => vec![[SELF, 3, 2, 0], [SEND, 1, label, 3], [ADD, 1, 1, 2], [GO, at, 0, 0]],
    }
}

/// Whole fragments up to about `n` instructions, with labels of `labels` or 15.
fn of_fragments(rng: &mut Rng, n: usize, labels: &[u8]) -> Vec<Instruction> {
    let mut program = Vec::new();
    while program.len() < n.clamp(1, PROGRAM_MAX - 8) {
        let label = if rng.one_in(2) { 15 } else { rng.pick(labels) };
        let size = rng.pick(&[1, 1, 2, 3]);
        program.extend(fragment(rng, program.len() as u8, label, size));
    }
    program
}

/// A legal program of `n` random instructions, whose labels are often of `labels`.
pub fn of_length(rng: &mut Rng, n: usize, labels: &[u8]) -> Vec<Instruction> {
    let mut program: Vec<_> = (0..n).map(|_| random_instruction(rng, n, labels)).collect();
    // Most programs begin again at their end; tasks run off the others.
    if !rng.one_in(4) {
        program[n - 1] = [GO, 0, 0, 0];
    }
    program
}

/// A legal program whose labels are often of `labels`.
pub fn program(rng: &mut Rng, labels: &[u8]) -> Vec<Instruction> {
    let n = match rng.below(20) {
        0 => PROGRAM_MAX,
        1 => rng.between(1, PROGRAM_MAX),
        2..=4 => rng.between(1, 3),
        _ => rng.between(4, 24),
    };
    if rng.one_in(2) {
        of_fragments(rng, n, labels)
    } else {
        of_length(rng, n, labels)
    }
}
