//! An accepted image taken apart, and what an observer may see of it.

use crate::instruction::Instruction;
use crate::label::Label;
use crate::slot::Slot;
use crate::task::Task;
use crate::version::Version;

/// The bytes of a message.
pub const MESSAGE_LENGTH: usize = 6;

/// The tasks by slot; nothing in an unused slot.
pub type Tasks = [Option<Task>; Slot::COUNT];

/// An accepted image taken apart.
#[derive(Debug)]
pub struct Image<'a> {
    /// The version that it is written in again.
    pub version: Version,
    /// The program as it stands in the caller's image.
    pub program_bytes: &'a [u8],
    pub program: Vec<Instruction>,
    /// The slot whose turn is next.
    pub turn_slot: Slot,
    pub tasks: Tasks,
}

impl Image<'_> {
    /// Leaves out the tasks and messages that this observer may not see.
    pub fn keep_visible(&mut self, observer: Label) {
        for slot in &mut self.tasks {
            match slot {
                Some(task) if task.label.flows_to(observer) => task.mailbox.keep_visible(observer),
                _ => *slot = None,
            }
        }
    }
}
