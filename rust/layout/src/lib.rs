//! The parts of an image and their bytes in each version, and the table of instructions. A part may have any value, so
//! that a damaged image is made like any other.

#![forbid(unsafe_code)]

pub mod instructions;
pub mod next;
pub mod records;

/// The number of slots.
pub const SLOTS: usize = 16;

/// The sender of a message that the host posted; slots are 0 to 15.
pub const HOST: u8 = 16;

/// The versions of an image.
pub const VERSIONS: [u8; 2] = [1, 2];

/// The bytes of a message.
pub const MESSAGE_LENGTH: usize = 6;

/// The bytes of a clearance, right behind the label: none ahead of version 2.
pub const fn clearance_length(version: u8) -> usize {
    (version >= 2) as usize
}

/// Where the place of a record stands: behind kind, label, clearance and spare.
pub const fn place_at(version: u8) -> usize {
    3 + clearance_length(version)
}

/// Where the registers of a record begin: behind the place.
pub const fn registers_at(version: u8) -> usize {
    place_at(version) + 2
}

/// The bytes of a record without messages: all up to the end of the eight registers.
pub const fn task_length(version: u8) -> usize {
    registers_at(version) + 8 * 4
}

/// The bytes of an instruction: its code and the operands a, b and c.
pub type Instruction = [u8; 4];

/// A message of a mailbox.
#[derive(Debug, Clone, Copy, PartialEq, Eq)]
pub struct Message {
    pub label: u8,
    pub sender: u8,
    pub value: u32,
}

/// A task. Version 1 has no clearance; there it is left out of the bytes, whatever its value.
#[derive(Debug, Clone, PartialEq, Eq)]
pub struct Task {
    pub kind: u8,
    pub label: u8,
    pub clearance: u8,
    pub spare: u8,
    pub place: u16,
    pub registers: [u32; 8],
    pub mail: Vec<Message>,
}

/// An image; `version` is the layout of its records and its first byte. A byte in `first_byte` stands in place of the
/// true first byte, a length in `program_length` or `record_lengths` in place of the true one, `tail` stands behind
/// slot 15, and `cut` is the number of bytes that are left where some are cut off.
#[derive(Debug, Clone, PartialEq, Eq)]
pub struct Image {
    pub version: u8,
    pub first_byte: Option<u8>,
    pub program_length: Option<u16>,
    pub program: Vec<Instruction>,
    pub turn_slot: u8,
    pub slots: [Option<Task>; SLOTS],
    pub record_lengths: [Option<u16>; SLOTS],
    pub tail: Vec<u8>,
    pub cut: Option<usize>,
}

impl Default for Task {
    /// A live task with clearance 15, no mail and all else 0.
    fn default() -> Task {
        Task { kind: 1, label: 0, clearance: 15, spare: 0, place: 0, registers: [0; 8], mail: Vec::new() }
    }
}

impl Task {
    /// The bytes of the record in this version, without its length.
    pub fn record(&self, version: u8) -> Vec<u8> {
        let mut bytes = vec![self.kind, self.label];
        bytes.extend(&[self.clearance][..clearance_length(version)]);
        bytes.push(self.spare);
        bytes.extend(self.place.to_be_bytes());
        bytes.extend(self.registers.iter().flat_map(|register| register.to_be_bytes()));
        for message in &self.mail {
            bytes.extend([message.label, message.sender]);
            bytes.extend(message.value.to_be_bytes());
        }
        bytes
    }
}

impl Image {
    /// An image of version 1 with that program, turn slot 0 and no task.
    pub fn new(program: Vec<Instruction>) -> Image {
        Image {
            version: 1,
            first_byte: None,
            program_length: None,
            program,
            turn_slot: 0,
            slots: Default::default(),
            record_lengths: [None; SLOTS],
            tail: Vec::new(),
            cut: None,
        }
    }

    /// The slots that have a task.
    pub fn used(&self) -> Vec<usize> {
        (0..SLOTS).filter(|&slot| self.slots[slot].is_some()).collect()
    }

    /// The task in a used slot, to be changed.
    ///
    /// # Panics
    /// Where the slot is unused.
    pub fn task(&mut self, slot: usize) -> &mut Task {
        self.slots[slot].as_mut().expect("a used slot")
    }

    /// The bytes ahead of slot 0.
    pub fn head(&self) -> Vec<u8> {
        let mut bytes = vec![self.first_byte.unwrap_or(self.version)];
        bytes.extend(self.program_length.unwrap_or((4 * self.program.len()) as u16).to_be_bytes());
        bytes.extend(self.program.iter().flatten());
        bytes.push(self.turn_slot);
        bytes
    }

    /// The bytes of the image.
    pub fn bytes(&self) -> Vec<u8> {
        let mut bytes = self.head();
        for (task, length) in self.slots.iter().zip(self.record_lengths) {
            let record = task.as_ref().map_or(Vec::new(), |task| task.record(self.version));
            bytes.extend(length.unwrap_or(record.len() as u16).to_be_bytes());
            bytes.extend(record);
        }
        bytes.extend(&self.tail);
        bytes.truncate(self.cut.unwrap_or(bytes.len()));
        bytes
    }
}

#[cfg(test)]
mod tests {
    use super::{place_at, registers_at, task_length, Image, Message, Task, MESSAGE_LENGTH, VERSIONS};

    /// A task in which each part has a value of its own.
    fn task() -> Task {
        let mail = vec![Message { label: 6, sender: 7, value: 8 }];
        Task { kind: 1, label: 2, clearance: 3, spare: 4, place: 5, registers: [9; 8], mail }
    }

    /// Written out from 01 and U5: what reads the lengths would follow a wrong one.
    #[test]
    fn a_record_has_a_clearance_behind_the_label_from_version_2_on() {
        let registers = [0, 0, 0, 9].repeat(8);
        let message = [6, 7, 0, 0, 0, 8];
        assert_eq!(task().record(1), [&[1, 2, 4, 0, 5], &registers[..], &message].concat());
        for version in 2..=255 {
            assert_eq!(task().record(version), [&[1, 2, 3, 4, 0, 5], &registers[..], &message].concat());
        }
        assert_eq!(VERSIONS.map(place_at), [3, 4]);
        assert_eq!(VERSIONS.map(registers_at), [5, 6]);
        assert_eq!(VERSIONS.map(task_length), [37, 38]);
        for version in VERSIONS {
            assert_eq!(task().record(version).len(), task_length(version) + MESSAGE_LENGTH);
        }
    }

    #[test]
    fn another_first_byte_leaves_the_layout_as_it_is() {
        for version in VERSIONS {
            let mut image = Image { version, ..Image::new(vec![[0; 4]]) };
            image.slots[3] = Some(task());
            let own = image.bytes();
            assert_eq!(own[0], version);
            image.first_byte = Some(9);
            assert_eq!(image.bytes(), [&[9], &own[1..]].concat());
        }
    }
}
