//! Images of both versions that keep every rule, made to do much: few labels, clearances that raises leave, registers that
//! hold slot numbers, full mailboxes, large spares.

use crate::programs::{self, PROGRAM_MAX};
use crate::rng::Rng;
use layout::{clearance_length, Image, Message, Task, SLOTS, VERSIONS};
use rithennaw::HOST;

/// The most messages in a mailbox, and the most of one label.
pub const MAIL_MAX: usize = 64;
pub const MAIL_PER_LABEL: usize = 4;

/// All labels.
pub const LABELS: [u8; 16] = [0, 1, 2, 3, 4, 5, 6, 7, 8, 9, 10, 11, 12, 13, 14, 15];

/// A value for a register or a message: often a slot, or next to a limit.
pub fn value(rng: &mut Rng) -> u32 {
    match rng.below(8) {
        0..=3 => rng.below(SLOTS) as u32,
        4 => rng.pick(&[0, 1, 16, 17, 255, 256, 65_535, 65_536, 0x0100_0000, 0x8000_0000, u32::MAX - 1, u32::MAX]),
        5 => 256 * rng.below(4) as u32 + rng.below(SLOTS) as u32,
        _ => rng.bits() as u32,
    }
}

/// Who sent a message: the host, or one of the slots.
fn sender(rng: &mut Rng) -> u8 {
    if rng.one_in(4) {
        HOST
    } else {
        rng.byte_below(SLOTS as u16)
    }
}

/// As many messages of those labels as a mailbox may hold, in a random order.
pub fn all_mail(rng: &mut Rng, labels: &[u8]) -> Vec<Message> {
    let mut labels: Vec<u8> = labels.iter().flat_map(|&label| [label; MAIL_PER_LABEL]).collect();
    rng.shuffle(&mut labels);
    labels.into_iter().map(|label| Message { label, sender: sender(rng), value: value(rng) }).collect()
}

/// Messages of those labels: none, some, or as many as there may be.
pub fn mail(rng: &mut Rng, labels: &[u8]) -> Vec<Message> {
    let mut mail = all_mail(rng, labels);
    mail.truncate(match rng.below(8) {
        0 => mail.len(),
        1..=3 => rng.below(mail.len().min(8) + 1),
        4 => rng.below(mail.len() + 1),
        _ => 0,
    });
    mail
}

/// The last kind of a task in this version: 6 where there are clearances, else 5.
pub fn last_kind(version: u8) -> u8 {
    5 + clearance_length(version) as u8
}

/// A clearance that a task of that label may have: the label alone, all owners, or any.
fn clearance(rng: &mut Rng, label: u8) -> u8 {
    match rng.below(6) {
        0 => label,
        1 => 15,
        _ => label | rng.byte_below(16),
    }
}

/// A task of the image, most often live, with no spare and no mail.
pub fn task(rng: &mut Rng, image: &Image, label: u8) -> Task {
    let n = image.program.len();
    let place = match rng.below(12) {
        0 => n,
        1..=3 => 0,
        _ => rng.below(n),
    };
    Task {
        kind: if rng.one_in(5) { rng.between(2, last_kind(image.version).into()) as u8 } else { 1 },
        label,
        clearance: if clearance_length(image.version) == 0 { 15 } else { clearance(rng, label) },
        place: place as u16,
        registers: std::array::from_fn(|_| value(rng)),
        ..Task::default()
    }
}

/// Some of the slots, each once.
pub fn some_slots(rng: &mut Rng, slots: &[usize]) -> Vec<usize> {
    let mut some = slots.to_vec();
    rng.shuffle(&mut some);
    some.truncate(rng.below(slots.len() + 1));
    some
}

/// Puts tasks of those labels into the slots, with mail of `mail_labels`.
pub fn add_tasks(rng: &mut Rng, image: &mut Image, slots: &[usize], labels: &[u8], mail_labels: &[u8]) {
    for &slot in slots {
        let label = rng.pick(labels);
        let mut task = task(rng, image, label);
        task.mail = mail(rng, mail_labels);
        image.slots[slot] = Some(task);
    }
}

/// Gives the tasks in `slots` spares that cover none of the slots of `closed`.
pub fn give_spares(rng: &mut Rng, image: &mut Image, slots: &[usize], closed: &[usize]) {
    for &slot in slots {
        let next = (slot + 1..SLOTS).find(|next| closed.contains(next)).unwrap_or(SLOTS);
        let room = next - slot - 1;
        let spare = if rng.one_in(2) { room } else { rng.below(room + 1) };
        if let Some(task) = &mut image.slots[slot] {
            task.spare = spare as u8;
        }
    }
}

/// The longest image of a version: 256 instructions, and 64 messages for each of sixteen tasks.
pub fn longest(rng: &mut Rng, version: u8) -> Image {
    let mut image = Image { version, ..Image::new(programs::of_length(rng, PROGRAM_MAX, &LABELS)) };
    for slot in 0..SLOTS {
        let label = rng.byte_below(16);
        image.slots[slot] = Some(Task { mail: all_mail(rng, &LABELS), ..task(rng, &image, label) });
    }
    image
}

/// The shortest image of a version: one instruction and no task.
fn shortest(rng: &mut Rng, version: u8) -> Image {
    Image { version, ..Image::new(programs::of_length(rng, 1, &LABELS)) }
}

/// An image of the usual kind.
fn usual(rng: &mut Rng, version: u8) -> Image {
    let mut labels = LABELS.to_vec();
    rng.shuffle(&mut labels);
    labels.truncate(rng.pick(&[1, 2, 3, 16]));
    let mut image = Image { version, ..Image::new(programs::program(rng, &labels)) };
    image.turn_slot = rng.byte_below(16);
    let every: Vec<usize> = (0..SLOTS).collect();
    let used = some_slots(rng, &every);
    add_tasks(rng, &mut image, &used, &labels, &LABELS);
    give_spares(rng, &mut image, &used, &used);
    image
}

/// An image that is accepted.
pub fn accepted(rng: &mut Rng) -> Image {
    let version = rng.pick(&VERSIONS);
    match rng.below(40) {
        0 => longest(rng, version),
        1 => shortest(rng, version),
        _ => usual(rng, version),
    }
}
