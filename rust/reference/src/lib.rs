//! A plain interpreter of document 01 and requests U1 to U5 of document 02, written separately from the monitor and
//! compared with it.

#![forbid(unsafe_code)]
#![deny(missing_docs)]

mod clearance;
mod image;
mod instruction;
mod label;
mod listing;
mod looks;
mod mailbox;
mod read;
mod refusal;
mod sender;
mod sheet;
mod slot;
mod step;
mod task;
#[cfg(test)]
mod tests;
mod version;
mod write;

use std::ops::Range;

use image::Image;
use label::Label;
use mailbox::Message;
use refusal::Refusal;
use sender::Sender;
use slot::Slot;

/// The most turns of one call.
const TURN_LIMIT: u64 = 1_000_000;

/// What a call that writes tells: the number in documents 01 and 02, the answer's length, the busy count.
#[derive(Debug, Clone, Copy, PartialEq, Eq)]
pub struct Answer {
    /// 0 for an accepted call, else the number of its refusal.
    pub number: u8,
    /// How many bytes were written.
    pub length: usize,
    /// How many turns met a live task.
    pub busy: u64,
}

/// What a post tells, to the host alone: the number in documents 01 and 02, the answer's length, delivered or dropped.
#[derive(Debug, Clone, Copy, PartialEq, Eq)]
pub struct PostAnswer {
    /// 0 for an accepted call, else the number of its refusal.
    pub number: u8,
    /// How many bytes were written.
    pub length: usize,
    /// Whether the message joined the mailbox; a refused call says dropped.
    pub delivered: bool,
}

/// What a call that turns text into a program, or a program into text, tells: the number in documents 01 and 02, the
/// answer's length.
#[derive(Debug, Clone, Copy, PartialEq, Eq)]
pub struct TextAnswer {
    /// 0 for an accepted call, else the number of its refusal.
    pub number: u8,
    /// How many bytes were written.
    pub length: usize,
}

/// The image's number by itself: 0 where it is accepted.
pub fn check(image: &[u8]) -> u8 {
    read::read(image).map_or_else(Refusal::number, |_| 0)
}

/// Where a slot's record stands in the image; `0..0` for an unused slot, a slot number above 15
/// or a refused image.
pub fn record(image: &[u8], slot: u32) -> Range<usize> {
    let Ok((_, records)) = read::read(image) else {
        return 0..0;
    };
    let index = usize::try_from(slot).ok();
    index.and_then(|index| records.get(index).cloned()).unwrap_or_default()
}

/// Writes an image again as it was read.
pub fn rewrite(image: &[u8], out: &mut [u8]) -> Answer {
    answer(rewritten(image), out)
}

/// Writes the image after `count` turns.
pub fn turns(image: &[u8], count: u64, out: &mut [u8]) -> Answer {
    answer(turned(image, count), out)
}

/// Writes the image after the host has posted a message of this label and value to this slot.
pub fn post(image: &[u8], slot: u32, label: u32, value: u32, out: &mut [u8]) -> PostAnswer {
    let (number, length, delivered) = written(posted(image, slot, label, value), out);
    PostAnswer { number, length, delivered }
}

/// Writes the observer's view of an image.
pub fn view(image: &[u8], observer: u32, out: &mut [u8]) -> Answer {
    let view = visible(image, observer).map(|image| write::write(&image));
    answer(view.map(|bytes| (bytes, 0)), out)
}

/// Writes the observer sheet: the heading and one line per used slot of the view.
pub fn sheet(image: &[u8], observer: u32, out: &mut [u8]) -> Answer {
    let sheet = visible(image, observer).map(|image| sheet::sheet(&image));
    answer(sheet.map(|text| (text.into_bytes(), 0)), out)
}

/// All that the program `slotsheet` prints for this standard input.
pub fn slotsheet(input: &[u8]) -> Vec<u8> {
    sheet::split_input(input)
        .and_then(|(observer, image)| visible(image, observer.into()))
        .map_or_else(sheet::refusal_line, |image| sheet::sheet(&image))
        .into_bytes()
}

/// All that the test program `lookprobe` prints for this standard input: nothing for a refused image, else for each
/// slot, and in it each label, two bytes: 1 where the mailbox of the slot's task has room for one more message of the
/// label, else 0, and how many messages the count looks at. Both are 0 for an unused slot.
pub fn looks(image: &[u8]) -> Vec<u8> {
    read::read(image).map_or_else(|_| Vec::new(), |(image, _)| looks::looks(&image))
}

/// Writes the program that a text lists, a line for each instruction.
pub fn assemble(text: &[u8], out: &mut [u8]) -> TextAnswer {
    text_answer(listing::assemble(text), out)
}

/// Writes the text that lists a program, a line for each instruction.
pub fn disassemble(program: &[u8], out: &mut [u8]) -> TextAnswer {
    text_answer(listing::disassemble(program).map(String::into_bytes), out)
}

/// The bytes of a call's answer and what else it tells: its busy count, whether it delivered, or nothing.
type Outcome<T> = Result<(Vec<u8>, T), Refusal>;

fn rewritten(image: &[u8]) -> Outcome<u64> {
    let (image, _) = read::read(image)?;
    Ok((write::write(&image), 0))
}

fn turned(image: &[u8], count: u64) -> Outcome<u64> {
    if count > TURN_LIMIT {
        return Err(Refusal::TurnLimit);
    }
    let (mut image, _) = read::read(image)?;
    let busy = step::run(&mut image, count);
    Ok((write::write(&image), busy))
}

fn posted(image: &[u8], slot: u32, label: u32, value: u32) -> Outcome<bool> {
    if Slot::new(slot).is_none() {
        return Err(Refusal::PostSlot);
    }
    let label = label_numbered(label).ok_or(Refusal::PostLabel)?;
    let (mut image, _) = read::read(image)?;
    let message = Message { label, sender: Sender::HOST, value };
    let delivered = step::deliver(&mut image.tasks, slot, message);
    Ok((write::write(&image), delivered))
}

/// The image with what the observer may not see left out.
fn visible(image: &[u8], observer: u32) -> Result<Image<'_>, Refusal> {
    let observer = label_numbered(observer).ok_or(Refusal::Observer)?;
    let (mut image, _) = read::read(image)?;
    image.keep_visible(observer);
    Ok(image)
}

/// The label that a caller's number stands for.
fn label_numbered(number: u32) -> Option<Label> {
    u8::try_from(number).ok().and_then(Label::new)
}

fn answer(outcome: Outcome<u64>, out: &mut [u8]) -> Answer {
    let (number, length, busy) = written(outcome, out);
    Answer { number, length, busy }
}

fn text_answer(outcome: Result<Vec<u8>, Refusal>, out: &mut [u8]) -> TextAnswer {
    let (number, length, ()) = written(outcome.map(|bytes| (bytes, ())), out);
    TextAnswer { number, length }
}

/// Copies the bytes of an accepted call to the front of the output, if they fit; the number, the length and what else
/// the call tells, which is its default, 0 or false, after a refusal.
fn written<T: Default>(outcome: Outcome<T>, out: &mut [u8]) -> (u8, usize, T) {
    let written = outcome.and_then(|(bytes, told)| {
        let front = out.get_mut(..bytes.len()).ok_or(Refusal::Output)?;
        front.copy_from_slice(&bytes);
        Ok((0, bytes.len(), told))
    });
    written.unwrap_or_else(|refusal| (refusal.number(), 0, T::default()))
}
