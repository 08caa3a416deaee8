//! Writing an image.

use crate::image::{Image, MESSAGE_LENGTH};
use crate::mailbox::Message;
use crate::task::Task;
use crate::version::Version;

/// The bytes of an image.
pub fn write(image: &Image<'_>) -> Vec<u8> {
    let mut bytes = vec![image.version as u8];
    write_length(image.program_bytes.len(), &mut bytes);
    bytes.extend(image.program_bytes);
    bytes.push(image.turn_slot.number());
    for slot in &image.tasks {
        match slot {
            Some(task) => write_task(task, image.version, &mut bytes),
            None => write_length(0, &mut bytes),
        }
    }
    bytes
}

/// A length in two bytes; every length in an image is at most 1,024.
fn write_length(length: usize, bytes: &mut Vec<u8>) {
    bytes.extend((length as u16).to_be_bytes());
}

fn write_task(task: &Task, version: Version, bytes: &mut Vec<u8>) {
    let messages = task.mailbox.messages();
    write_length(version.task_length() + MESSAGE_LENGTH * messages.len(), bytes);
    bytes.extend([task.kind as u8, task.label.number()]);
    if version.has_clearance() {
        bytes.push(task.clearance.number());
    }
    bytes.push(task.spare);
    bytes.extend(task.place.to_be_bytes());
    for register in task.registers.0 {
        bytes.extend(register.to_be_bytes());
    }
    for message in messages {
        write_message(message, bytes);
    }
}

fn write_message(message: &Message, bytes: &mut Vec<u8>) {
    bytes.extend([message.label.number(), message.sender.number()]);
    bytes.extend(message.value.to_be_bytes());
}
