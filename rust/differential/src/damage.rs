//! Ways to damage an accepted image of either version, a field of the layout at a time, and the number that each leads to.

use crate::images::{last_kind, MAIL_MAX, MAIL_PER_LABEL};
use crate::instructions::illegal;
use crate::programs::PROGRAM_MAX;
use crate::rng::Rng;
use layout::instructions::TABLE;
use layout::{clearance_length, task_length, Image, Message, Task, MESSAGE_LENGTH, SLOTS, VERSIONS};
use rithennaw::HOST;

/// A way to damage what a call reads: an image, or a text.
pub struct Fault<T> {
    pub name: &'static str,
    /// The number by which an input with this fault alone is refused.
    pub number: u8,
    /// Damages the input. Gives false and does nothing where it has nothing that can be damaged so.
    pub apply: fn(&mut Rng, &mut T) -> bool,
}

pub const fn fault<T>(number: u8, name: &'static str, apply: fn(&mut Rng, &mut T) -> bool) -> Fault<T> {
    Fault { name, number, apply }
}

/// Every fault of an image.
pub const FAULTS: [Fault<Image>; 32] = [
    fault(3, "cut", cut),
    fault(3, "cut by one byte", cut_by_one),
    fault(4, "version", version),
    fault(5, "program length 0", |_, image| set(&mut image.program_length, 0)),
    fault(5, "program length no multiple of 4", program_length_between),
    fault(5, "program length above 1,024", program_length_large),
    fault(5, "257 instructions", instructions_257),
    fault(6, "code", code),
    fault(6, "operand a", |rng, image| operand(rng, image, 0)),
    fault(6, "operand b", |rng, image| operand(rng, image, 1)),
    fault(6, "operand c", |rng, image| operand(rng, image, 2)),
    fault(7, "turn slot", turn_slot),
    fault(8, "record length below that of no messages", record_length_below),
    fault(8, "record length between two numbers of messages", record_length_between),
    fault(8, "record length of more than 64 messages", record_length_above),
    fault(8, "record length of the other version", record_length_of_other_version),
    fault(8, "records of the other version", records_of_other_version),
    fault(8, "65 messages", messages_65),
    fault(9, "kind", kind),
    fault(9, "label", |rng, image| task(rng, image, |rng, task| task.label = above(rng, 15))),
    fault(9, "clearance above 15", clearance_above_15),
    fault(9, "clearance that lacks an owner of the label", clearance_without_owner),
    fault(9, "spare beyond slot 15", spare_beyond),
    fault(9, "place", place),
    fault(10, "message label", |rng, image| message(rng, image, |rng, message| message.label = above(rng, 15))),
    fault(10, "message sender", |rng, image| message(rng, image, |rng, message| message.sender = above(rng, HOST))),
    fault(10, "fifth message of a label", fifth_message),
    fault(10, "five messages of a label among others", five_of_full_mailbox),
    fault(11, "one byte of tail", |rng, image| tail(rng, image, 1)),
    fault(11, "tail", long_tail),
    fault(12, "used slot at the end of a spare", |rng, image| spare_over_used(rng, image, 0)),
    fault(12, "used slot within a spare", |rng, image| spare_over_used(rng, image, SLOTS)),
];

fn set<T>(field: &mut Option<T>, value: T) -> bool {
    *field = Some(value);
    true
}

/// A byte above the limit, most often the next one.
fn above(rng: &mut Rng, limit: u8) -> u8 {
    let next = limit + 1;
    if rng.one_in(3) {
        rng.between(next.into(), 255) as u8
    } else {
        next
    }
}

fn cut(rng: &mut Rng, image: &mut Image) -> bool {
    let length = image.bytes().len();
    length > 0 && set(&mut image.cut, rng.below(length))
}

fn cut_by_one(_: &mut Rng, image: &mut Image) -> bool {
    let length = image.bytes().len();
    length > 0 && set(&mut image.cut, length - 1)
}

fn version(rng: &mut Rng, image: &mut Image) -> bool {
    set(&mut image.first_byte, rng.pick(&[0, 3, 255]))
}

fn program_length_between(rng: &mut Rng, image: &mut Image) -> bool {
    set(&mut image.program_length, (4 * image.program.len() + rng.between(1, 3)) as u16)
}

fn program_length_large(rng: &mut Rng, image: &mut Image) -> bool {
    set(&mut image.program_length, rng.pick(&[1_028, 2_048, 65_532, 65_535]))
}

fn instructions_257(_: &mut Rng, image: &mut Image) -> bool {
    image.program.resize(PROGRAM_MAX + 1, [0; 4]);
    true
}

fn code(rng: &mut Rng, image: &mut Image) -> bool {
    let first_illegal = TABLE.len();
    let at = rng.below(image.program.len());
    image.program[at][0] = if rng.one_in(2) { first_illegal } else { rng.between(first_illegal, 255) } as u8;
    true
}

/// Puts the operand `which` of an instruction outside its range.
fn operand(rng: &mut Rng, image: &mut Image, which: usize) -> bool {
    let n = image.program.len();
    let at = rng.below(n);
    let Some(row) = TABLE.get(usize::from(image.program[at][0])) else { return false };
    let Some(byte) = illegal(rng, row.operands[which], n) else { return false };
    image.program[at][1 + which] = byte;
    true
}

fn turn_slot(rng: &mut Rng, image: &mut Image) -> bool {
    image.turn_slot = above(rng, 15);
    true
}

fn record_length(rng: &mut Rng, image: &mut Image, lengths: &[u16]) -> bool {
    set(&mut image.record_lengths[rng.below(SLOTS)], rng.pick(lengths))
}

/// The length of a record with so many messages in this version.
fn length_of(version: u8, messages: usize) -> u16 {
    (task_length(version) + MESSAGE_LENGTH * messages) as u16
}

fn record_length_below(rng: &mut Rng, image: &mut Image) -> bool {
    let least = length_of(image.version, 0);
    record_length(rng, image, &[1, 2, least - 1])
}

fn record_length_between(rng: &mut Rng, image: &mut Image) -> bool {
    let length = length_of(image.version, rng.below(MAIL_MAX + 1)) + rng.between(1, MESSAGE_LENGTH - 1) as u16;
    record_length(rng, image, &[length])
}

/// Lengths of numbers of messages, the last one the largest that there is room for, and the largest length.
fn record_length_above(rng: &mut Rng, image: &mut Image) -> bool {
    let [near, next, last] = [MAIL_MAX + 1, MAIL_MAX + 2, 10_916].map(|messages| length_of(image.version, messages));
    record_length(rng, image, &[near, next, last, 65_535])
}

/// A version that the image is not of.
fn other_version(rng: &mut Rng, image: &Image) -> u8 {
    let others: Vec<u8> = VERSIONS.into_iter().filter(|&version| version != image.version).collect();
    rng.pick(&others)
}

fn record_length_of_other_version(rng: &mut Rng, image: &mut Image) -> bool {
    let length = length_of(other_version(rng, image), rng.below(MAIL_MAX + 1));
    record_length(rng, image, &[length])
}

/// Puts the other version's number ahead of an image that has tasks. No length but 0 is one of both versions, so it is the
/// first task's that is wrong; an image without tasks would be accepted in the other version.
fn records_of_other_version(rng: &mut Rng, image: &mut Image) -> bool {
    let other = other_version(rng, image);
    !image.used().is_empty() && set(&mut image.first_byte, other)
}

/// Changes a task of the image.
fn task(rng: &mut Rng, image: &mut Image, change: impl Fn(&mut Rng, &mut Task)) -> bool {
    slot_and_task(rng, image).map(|(_, task)| change(rng, task)).is_some()
}

/// One of the tasks, and its slot.
fn slot_and_task<'a>(rng: &mut Rng, image: &'a mut Image) -> Option<(usize, &'a mut Task)> {
    let used = image.used();
    let slot = *used.get(rng.below(used.len()))?;
    image.slots[slot].as_mut().map(|task| (slot, task))
}

fn messages_65(rng: &mut Rng, image: &mut Image) -> bool {
    task(rng, image, |_, task| {
        let labels = (0..16).cycle().skip(task.mail.len());
        let more = labels.take(MAIL_MAX + 1 - task.mail.len());
        task.mail.extend(more.map(|label| Message { label, sender: 0, value: 0 }));
    })
}

/// A kind next to those that there are, which in version 1 is one of version 2, or another.
fn kind(rng: &mut Rng, image: &mut Image) -> bool {
    let next = last_kind(image.version) + 1;
    task(rng, image, |rng, task| task.kind = rng.pick(&[0, next, 255]))
}

/// Gives a clearance bits that are no owner's, beside those that it has.
fn clearance_above_15(rng: &mut Rng, image: &mut Image) -> bool {
    clearance_length(image.version) > 0
        && task(rng, image, |rng, task| task.clearance |= rng.pick(&[0x10, 0x20, 0x80, 0xf0]))
}

/// Takes an owner of its label from the clearance of a task.
fn clearance_without_owner(rng: &mut Rng, image: &mut Image) -> bool {
    if clearance_length(image.version) == 0 {
        return false;
    }
    let mut labelled: Vec<_> = image.slots.iter_mut().flatten().filter(|task| task.label & 15 != 0).collect();
    let at = rng.below(labelled.len());
    let Some(task) = labelled.get_mut(at) else { return false };
    let owners: Vec<u8> = [1, 2, 4, 8].into_iter().filter(|owner| task.label & owner != 0).collect();
    task.clearance &= !rng.pick(&owners);
    true
}

fn spare_beyond(rng: &mut Rng, image: &mut Image) -> bool {
    let Some((slot, task)) = slot_and_task(rng, image) else { return false };
    let first_illegal = SLOTS - slot;
    task.spare = if rng.one_in(2) { first_illegal } else { rng.between(first_illegal, 255) } as u8;
    true
}

fn place(rng: &mut Rng, image: &mut Image) -> bool {
    let n = image.program.len() as u16;
    task(rng, image, |rng, task| task.place = rng.pick(&[n + 1, n + 256, 65_535]))
}

/// Changes a message of the image.
fn message(rng: &mut Rng, image: &mut Image, change: impl Fn(&mut Rng, &mut Message)) -> bool {
    let mut messages: Vec<_> = image.slots.iter_mut().flatten().flat_map(|task| &mut task.mail).collect();
    let at = rng.below(messages.len());
    messages.get_mut(at).map(|message| change(rng, message)).is_some()
}

/// Puts messages of one label at the end of a mailbox that has room, until there are five.
fn fifth_message(rng: &mut Rng, image: &mut Image) -> bool {
    let Some((_, task)) = slot_and_task(rng, image) else { return false };
    let label = task.mail.first().map_or(rng.byte_below(16), |message| message.label);
    let there = task.mail.iter().filter(|message| message.label == label).count();
    let more = (MAIL_PER_LABEL + 1).saturating_sub(there);
    let room = task.mail.len() + more <= MAIL_MAX;
    if room {
        task.mail.extend((0..more).map(|_| Message { label, sender: 0, value: 0 }));
    }
    room
}

/// Gives five messages of a mailbox the same label.
fn five_of_full_mailbox(rng: &mut Rng, image: &mut Image) -> bool {
    let Some((_, task)) = slot_and_task(rng, image) else { return false };
    let label = rng.byte_below(16);
    let enough = task.mail.len() > MAIL_PER_LABEL;
    if enough {
        let mut at: Vec<usize> = (0..task.mail.len()).collect();
        rng.shuffle(&mut at);
        at[..=MAIL_PER_LABEL].iter().for_each(|&at| task.mail[at].label = label);
    }
    enough
}

fn tail(rng: &mut Rng, image: &mut Image, length: usize) -> bool {
    let mut bytes = vec![0; length];
    rng.fill(&mut bytes);
    image.tail.extend(bytes);
    true
}

fn long_tail(rng: &mut Rng, image: &mut Image) -> bool {
    let length = rng.pick(&[2, 37, 300, 8_000, 70_000]);
    tail(rng, image, length)
}

/// Gives a task a spare that covers the next used slot, and up to `more` slots behind that.
fn spare_over_used(rng: &mut Rng, image: &mut Image, more: usize) -> bool {
    let used = image.used();
    let first = rng.below(used.len().saturating_sub(1));
    let (Some(&slot), Some(&next)) = (used.get(first), used.get(first + 1)) else { return false };
    let last = next + rng.below(more.min(SLOTS - 1 - next) + 1);
    if let Some(task) = &mut image.slots[slot] {
        task.spare = (last - slot) as u8;
    }
    true
}

/// Changes up to four bytes.
pub fn flip(rng: &mut Rng, bytes: &mut [u8]) {
    for _ in 0..rng.between(1, 4) {
        let at = rng.below(bytes.len());
        if let Some(byte) = bytes.get_mut(at) {
            *byte = if rng.one_in(2) { rng.byte_below(256) } else { *byte ^ (1 << rng.below(8)) };
        }
    }
}

/// Random bytes, which most often begin as an image does.
pub fn garbage(rng: &mut Rng) -> Vec<u8> {
    let mut bytes = vec![0; rng.pick(&[0, 1, 2, 3, 4, 8, 40, 100, 1_000, 9_000])];
    rng.fill(&mut bytes);
    let version = rng.pick(&VERSIONS);
    let starts: [&[u8]; 4] = [&[], &[version], &[version, 0, 4], &[version, 0, 4, 0, 0, 0, 0, 0]];
    let start = rng.pick(&starts);
    let length = start.len().min(bytes.len());
    bytes[..length].copy_from_slice(&start[..length]);
    bytes
}
