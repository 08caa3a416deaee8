//! Reading an image from front to back, with the refusals in their order.

use std::ops::Range;

use crate::clearance::Clearance;
use crate::image::{Image, Tasks, MESSAGE_LENGTH};
use crate::instruction::Instruction;
use crate::label::Label;
use crate::mailbox::{Mailbox, Message};
use crate::refusal::Refusal;
use crate::sender::Sender;
use crate::slot::Slot;
use crate::task::{Kind, Registers, Task};
use crate::version::Version;

/// The longest program in bytes.
const PROGRAM_LIMIT: usize = 1024;

/// Where each slot's record stands in the image; an empty range for an unused slot.
pub type Records = [Range<usize>; Slot::COUNT];

/// Takes fields and parts from the front of some bytes.
struct Reader<'a> {
    bytes: &'a [u8],
    at: usize,
}

impl<'a> Reader<'a> {
    fn new(bytes: &'a [u8]) -> Reader<'a> {
        Reader { bytes, at: 0 }
    }

    fn rest(&self) -> &'a [u8] {
        self.bytes.get(self.at..).unwrap_or_default()
    }

    fn part(&mut self, length: usize) -> Result<&'a [u8], Refusal> {
        let part = self.rest().get(..length).ok_or(Refusal::Short)?;
        self.at += length;
        Ok(part)
    }

    fn field<const N: usize>(&mut self) -> Result<[u8; N], Refusal> {
        let field = *self.rest().first_chunk().ok_or(Refusal::Short)?;
        self.at += N;
        Ok(field)
    }

    fn byte(&mut self) -> Result<u8, Refusal> {
        self.field().map(u8::from_be_bytes)
    }

    fn two_bytes(&mut self) -> Result<u16, Refusal> {
        self.field().map(u16::from_be_bytes)
    }

    fn four_bytes(&mut self) -> Result<u32, Refusal> {
        self.field().map(u32::from_be_bytes)
    }
}

/// Reads a whole image, or tells the first refusal met.
pub fn read(bytes: &[u8]) -> Result<(Image<'_>, Records), Refusal> {
    let mut reader = Reader::new(bytes);
    let version = Version::new(reader.byte()?).ok_or(Refusal::Version)?;
    let program_bytes = read_program_bytes(&mut reader)?;
    let program = decode_program(program_bytes)?;
    let turn_slot = Slot::new(reader.byte()?.into()).ok_or(Refusal::TurnSlot)?;
    let mut tasks = Tasks::default();
    let mut records = Records::default();
    for ((slot, task), range) in Slot::all().zip(&mut tasks).zip(&mut records) {
        let record = read_record(&mut reader, version)?;
        if !record.is_empty() {
            *task = Some(read_task(record, version, slot, program.len())?);
            *range = reader.at - record.len()..reader.at;
        }
    }
    if !reader.rest().is_empty() {
        return Err(Refusal::Tail);
    }
    check_estates(&tasks)?;
    Ok((Image { version, program_bytes, program, turn_slot, tasks }, records))
}

fn read_program_bytes<'a>(reader: &mut Reader<'a>) -> Result<&'a [u8], Refusal> {
    let length = usize::from(reader.two_bytes()?);
    check_program_length(length)?;
    reader.part(length)
}

/// Rule 2 of the image, for a program of this many bytes.
pub fn check_program_length(length: usize) -> Result<(), Refusal> {
    if !(Instruction::LENGTH..=PROGRAM_LIMIT).contains(&length) || length % Instruction::LENGTH != 0 {
        return Err(Refusal::ProgramLength);
    }
    Ok(())
}

/// The instructions in the bytes of a program.
pub fn decode_program(bytes: &[u8]) -> Result<Vec<Instruction>, Refusal> {
    let count = bytes.len() / Instruction::LENGTH;
    let mut reader = Reader::new(bytes);
    (0..count).map(|_| Instruction::decode(reader.field()?, count).ok_or(Refusal::Instruction)).collect()
}

/// The bytes of the next slot's record; none for an unused slot.
fn read_record<'a>(reader: &mut Reader<'a>, version: Version) -> Result<&'a [u8], Refusal> {
    let length = usize::from(reader.two_bytes()?);
    let messages = length.checked_sub(version.task_length());
    let whole = messages.is_some_and(|mail| mail % MESSAGE_LENGTH == 0 && mail / MESSAGE_LENGTH <= Mailbox::CAPACITY);
    if length != 0 && !whole {
        return Err(Refusal::RecordLength);
    }
    reader.part(length)
}

fn read_task(record: &[u8], version: Version, slot: Slot, program_count: usize) -> Result<Task, Refusal> {
    let mut reader = Reader::new(record);
    let kind = Kind::new(reader.byte()?, version).ok_or(Refusal::TaskField)?;
    let label = Label::new(reader.byte()?).ok_or(Refusal::TaskField)?;
    let clearance = read_clearance(&mut reader, version)?;
    let spare = reader.byte()?;
    let place = reader.two_bytes()?;
    if !clearance.admits(label) || slot.plus(spare).is_none() || usize::from(place) > program_count {
        return Err(Refusal::TaskField);
    }
    let mut registers = Registers::default();
    for register in &mut registers.0 {
        *register = reader.four_bytes()?;
    }
    let mailbox = read_mailbox(&mut reader)?;
    Ok(Task { kind, label, clearance, spare, place, registers, mailbox })
}

/// The clearance of a task; one that admits all labels where the version has none.
fn read_clearance(reader: &mut Reader<'_>, version: Version) -> Result<Clearance, Refusal> {
    if version.has_clearance() {
        Clearance::new(reader.byte()?).ok_or(Refusal::TaskField)
    } else {
        Ok(Clearance::ALL)
    }
}

fn read_mailbox(reader: &mut Reader<'_>) -> Result<Mailbox, Refusal> {
    let mut mailbox = Mailbox::new();
    while !reader.rest().is_empty() {
        let label = Label::new(reader.byte()?).ok_or(Refusal::Mail)?;
        let sender = Sender::new(reader.byte()?).ok_or(Refusal::Mail)?;
        let value = reader.four_bytes()?;
        if !mailbox.push(Message { label, sender, value }) {
            return Err(Refusal::Mail);
        }
    }
    Ok(mailbox)
}

/// No used slot lies in another task's spare, whether that task is live or not.
fn check_estates(tasks: &Tasks) -> Result<(), Refusal> {
    let overlap = tasks.iter().enumerate().any(|(slot, task)| {
        let spare = task.as_ref().map_or(0, |task| usize::from(task.spare));
        tasks.iter().skip(slot + 1).take(spare).any(Option::is_some)
    });
    if overlap {
        return Err(Refusal::Estate);
    }
    Ok(())
}
