//! A task as it stands in a used slot.

use crate::clearance::Clearance;
use crate::instruction::Register;
use crate::label::Label;
use crate::mailbox::Mailbox;
use crate::version::Version;

/// Whether a task runs, and if not, why it stopped; the value is the byte in the image.
#[derive(Debug, Clone, Copy, PartialEq, Eq)]
pub enum Kind {
    Live = 1,
    Done = 2,
    RanOff = 3,
    StoppedByLabel = 4,
    WantOfSpare = 5,
    StoppedByClearance = 6,
}

impl Kind {
    /// The kind that this byte stands for in an image of this version.
    pub fn new(byte: u8, version: Version) -> Option<Kind> {
        use Kind::*;
        [Live, Done, RanOff, StoppedByLabel, WantOfSpare, StoppedByClearance]
            .into_iter()
            .find(|&kind| kind as u8 == byte)
            .filter(|&kind| kind != StoppedByClearance || version.has_clearance())
    }
}

/// The registers of a task.
#[derive(Debug, Default)]
pub struct Registers(pub [u32; Register::COUNT]);

impl Registers {
    pub fn get(&self, register: Register) -> u32 {
        self.0[register.index()]
    }

    pub fn set(&mut self, register: Register, value: u32) {
        self.0[register.index()] = value;
    }
}

/// A task in a used slot.
#[derive(Debug)]
pub struct Task {
    pub kind: Kind,
    /// A subset of the clearance.
    pub label: Label,
    /// The ceiling of the label, which no turn changes; `Clearance::ALL` in an image of version 1.
    pub clearance: Clearance,
    /// How many slots behind its own the task has the right to.
    pub spare: u8,
    /// The index of the next instruction; at most the number of instructions.
    pub place: u16,
    pub registers: Registers,
    pub mailbox: Mailbox,
}

impl Task {
    pub fn is_live(&self) -> bool {
        self.kind == Kind::Live
    }
}
