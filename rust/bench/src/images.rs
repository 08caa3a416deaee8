//! What the measured images are written with: tasks and messages as text, and what is read from an image after a run.

use layout::{task_length, MESSAGE_LENGTH};
use std::ops::Range;

/// The numbers of slots and of labels.
pub const SLOTS: u8 = layout::SLOTS as u8;
pub const LABELS: u8 = 16;

/// The kind of a live task, the first byte of its record.
const LIVE: u8 = 1;

/// The image of a program and of live tasks in these slots; `fields` gives those of the task in a slot.
pub fn image(program: &str, slots: impl IntoIterator<Item = u8>, fields: impl Fn(u8) -> String) -> Vec<u8> {
    let slots = slots.into_iter().map(|slot| format!("slot {slot} {}\n", fields(slot)));
    let text = [program.to_string(), slots.collect()].concat();
    imagetext::image(&text).unwrap_or_else(|fault| panic!("{fault}\n{text}"))
}

/// Register 2 of a task: a figure of its own.
pub fn figure(slot: u8) -> String {
    format!("register 2 {}", 100 + slot)
}

/// Register 1 of a task, the slot that it sends to, and its figure.
pub fn sends_to(receiver: u8, slot: u8) -> String {
    format!("register 1 {receiver} {}", figure(slot))
}

/// A message of this label, as text.
pub fn message_of(label: u8) -> String {
    format!("\nmessage {label} 0 7")
}

/// As many messages of each of these labels as a mailbox holds.
pub fn four_of_each(labels: Range<u8>) -> String {
    labels.map(|label| message_of(label).repeat(4)).collect()
}

/// The messages in all mailboxes of an image together.
pub fn count_messages(image: &[u8]) -> usize {
    records(image).map(|record| record.len().saturating_sub(task_length(image[0])) / MESSAGE_LENGTH).sum()
}

/// The live tasks of an image.
pub fn count_live(image: &[u8]) -> u64 {
    records(image).filter(|record| record.first() == Some(&LIVE)).count() as u64
}

/// The records of all slots, empty where a slot is unused.
pub fn records(image: &[u8]) -> impl Iterator<Item = &[u8]> {
    rithennaw::Slot::all().map(|slot| rithennaw::record(image, slot))
}
