//! The calls. Those that write have two forms: one that allocates its answer, and one (`_into`) that writes into the
//! caller's buffer.

use crate::ffi::{self, Told};
use crate::{MessageLabel, Observer, Refusal, Slot, IMAGE_MAX, LISTING_MAX, PROGRAM_MAX, SHEET_MAX};
use std::ops::Range;

/// What [`turns`] gives. Both are for the host alone: they depend on all tasks, whoever may see them.
#[derive(Debug, Clone, PartialEq, Eq)]
pub struct Turned {
    /// The image after the turns.
    pub image: Vec<u8>,
    /// The number of turns that met a live task.
    pub busy: u64,
}

/// What [`turns_into`] tells. Both are for the host alone: they depend on all tasks, whoever may see them.
#[derive(Debug, Clone, Copy, PartialEq, Eq)]
pub struct TurnedInto {
    /// The length of the image after the turns, which stands at the front of the buffer.
    pub length: usize,
    /// The number of turns that met a live task.
    pub busy: u64,
}

/// What [`post`] gives. Both are for the host alone: they depend on all tasks, whoever may see them.
#[derive(Debug, Clone, PartialEq, Eq)]
pub struct Posted {
    /// The image after the post.
    pub image: Vec<u8>,
    /// Whether the message joined the mailbox; else it was dropped.
    pub delivered: bool,
}

/// What [`post_into`] tells. Both are for the host alone: they depend on all tasks, whoever may see them.
#[derive(Debug, Clone, Copy, PartialEq, Eq)]
pub struct PostedInto {
    /// The length of the image after the post, which stands at the front of the buffer.
    pub length: usize,
    /// Whether the message joined the mailbox; else it was dropped.
    pub delivered: bool,
}

/// Whether the image is accepted, by itself. No other call then refuses it but for its own arguments.
///
/// # Errors
/// Refusals 3 to 12.
pub fn check(image: &[u8]) -> Result<(), Refusal> {
    accepted(ffi::check(image))
}

/// The record of a slot: the part of the image that holds it. It is empty for an unused slot, a slot above 15 and a
/// refused image.
pub fn record(image: &[u8], slot: impl Into<Slot>) -> &[u8] {
    image.get(record_range(image, slot)).unwrap_or_default()
}

/// Where [`record`] stands in the image; `0..0` where it is empty.
pub fn record_range(image: &[u8], slot: impl Into<Slot>) -> Range<usize> {
    let (start, length) = ffi::record(image, slot.into().number());
    start..start.saturating_add(length)
}

/// The image again, as it was read: an accepted image gives its own bytes.
///
/// # Errors
/// Refusals 3 to 12.
pub fn rewrite(image: &[u8]) -> Result<Vec<u8>, Refusal> {
    allocated(IMAGE_MAX, |out| rewrite_into(image, out))
}

/// [`rewrite`] into a buffer. It tells the number of bytes written; those behind them stay as they were.
///
/// # Errors
/// Refusals 3 to 13; the buffer is as it was.
pub fn rewrite_into(image: &[u8], out: &mut [u8]) -> Result<usize, Refusal> {
    written(ffi::rewrite(image, out))
}

/// Runs `count` turns, at most [`TURNS_MAX`](crate::TURNS_MAX), and gives the image after them.
///
/// # Errors
/// Refusals 2 to 12; no turn was carried out.
pub fn turns(image: &[u8], count: u64) -> Result<Turned, Refusal> {
    let mut out = vec![0; IMAGE_MAX];
    let TurnedInto { length, busy } = turns_into(image, count, &mut out)?;
    Ok(Turned { image: front(out, length), busy })
}

/// [`turns`] into a buffer; the bytes behind the image after the turns stay as they were.
///
/// # Errors
/// Refusals 2 to 13; no turn was carried out, and the buffer is as it was.
pub fn turns_into(image: &[u8], count: u64, out: &mut [u8]) -> Result<TurnedInto, Refusal> {
    let (told, busy) = ffi::turns(image, count, out);
    Ok(TurnedInto { length: written(told)?, busy })
}

/// Posts a message of that label and value to a slot, and gives the image after it; no turn is run. Where the slot has a live
/// task with fewer than four messages of that label, the message joins the end of its mailbox, with [`HOST`](crate::HOST) as
/// its sender. Else it is dropped, and the image is as it was. The task receives the message as it does any other, once the
/// message's label flows to its own.
///
/// A post is no secret from an observer to whom its label flows: whether and when it is made, and its slot, label and value,
/// must not be chosen by what is hidden from that observer, such as whether another post was delivered.
///
/// # Errors
/// Refusals 3 to 12, 14 and 15.
pub fn post(
    image: &[u8], slot: impl Into<Slot>, label: impl Into<MessageLabel>, value: u32,
) -> Result<Posted, Refusal> {
    let mut out = vec![0; IMAGE_MAX];
    let PostedInto { length, delivered } = post_into(image, slot, label, value, &mut out)?;
    Ok(Posted { image: front(out, length), delivered })
}

/// [`post`] into a buffer; the bytes behind the image after the post stay as they were.
///
/// # Errors
/// Refusals 3 to 15; the buffer is as it was.
pub fn post_into(
    image: &[u8], slot: impl Into<Slot>, label: impl Into<MessageLabel>, value: u32, out: &mut [u8],
) -> Result<PostedInto, Refusal> {
    let (told, delivered) = ffi::post(image, slot.into().number(), label.into().number(), value, out);
    Ok(PostedInto { length: written(told)?, delivered })
}

/// What an observer is shown: the image in which a task whose label doesn't flow to the observer's is written as
/// unused, and messages whose labels don't are left out of the rest. A view is an accepted image itself; of a view for
/// another label it is the view for the owners that both have.
///
/// An observer who runs its view for as many turns as the host runs the image, with the posts whose labels flow to the
/// observer's, each after as many turns and in the same order, and then takes the view again, comes to the view of the
/// host's run. What the observer's run has beyond that view says nothing of the host's.
///
/// # Errors
/// Refusals 1 and 3 to 12.
pub fn view(image: &[u8], observer: impl Into<Observer>) -> Result<Vec<u8>, Refusal> {
    allocated(IMAGE_MAX, |out| view_into(image, observer, out))
}

/// [`view`] into a buffer. It tells the number of bytes written; those behind them stay as they were.
///
/// # Errors
/// Refusals 1 and 3 to 13; the buffer is as it was.
pub fn view_into(image: &[u8], observer: impl Into<Observer>, out: &mut [u8]) -> Result<usize, Refusal> {
    written(ffi::view(image, observer.into().number(), out))
}

/// The observer sheet: a heading and a line for each used slot of the observer's view, in ASCII. A line has the slot,
/// the task's kind, label, spare and place, and the number of messages in the view.
///
/// # Errors
/// Refusals 1 and 3 to 12.
pub fn sheet(image: &[u8], observer: impl Into<Observer>) -> Result<Vec<u8>, Refusal> {
    allocated(SHEET_MAX, |out| sheet_into(image, observer, out))
}

/// [`sheet`] into a buffer. It tells the number of bytes written; those behind them stay as they were.
///
/// # Errors
/// Refusals 1 and 3 to 13; the buffer is as it was.
pub fn sheet_into(image: &[u8], observer: impl Into<Observer>, out: &mut [u8]) -> Result<usize, Refusal> {
    written(ffi::sheet(image, observer.into().number(), out))
}

/// The program of a text, as it stands in an image behind its 2-byte length: four bytes for each line. A line is a word of the
/// table of instructions, then three numbers in decimal without leading zeros, single spaces between, and a line feed, on the
/// last line too. Nothing else belongs to the text, and it may be any bytes.
///
/// # Errors
/// Refusal 16, then 5, where there is no line or more than 256, then 6, as for every number above 255, however long.
pub fn assemble(text: impl AsRef<[u8]>) -> Result<Vec<u8>, Refusal> {
    allocated(PROGRAM_MAX, |out| assemble_into(text, out))
}

/// [`assemble`] into a buffer. It tells the number of bytes written; those behind them stay as they were.
///
/// # Errors
/// Refusals 16, 5, 6 and 13, in this order; the buffer is as it was.
pub fn assemble_into(text: impl AsRef<[u8]>, out: &mut [u8]) -> Result<usize, Refusal> {
    written(ffi::assemble(text.as_ref(), out))
}

/// The listing of a program: the text of which [`assemble`] makes the same bytes. A text that was assembled comes back as it
/// was typed.
///
/// # Errors
/// Refusals 5 and 6.
pub fn disassemble(program: &[u8]) -> Result<String, Refusal> {
    let text = allocated(LISTING_MAX, |out| disassemble_into(program, out))?;
    // The archive's listings are proved to be words and numbers in ASCII.
    Ok(String::from_utf8(text).unwrap_or_else(|_| unreachable!("librithennaw.a wrote a listing that is no text")))
}

/// [`disassemble`] into a buffer, as ASCII. It tells the number of bytes written; those behind them stay as they were.
///
/// # Errors
/// Refusals 5, 6 and 13; the buffer is as it was.
pub fn disassemble_into(program: &[u8], out: &mut [u8]) -> Result<usize, Refusal> {
    written(ffi::disassemble(program, out))
}

/// What a call writes into a buffer of `room` bytes, which is enough for every answer of that call.
fn allocated(room: usize, call: impl FnOnce(&mut [u8]) -> Result<usize, Refusal>) -> Result<Vec<u8>, Refusal> {
    let mut out = vec![0; room];
    let length = call(&mut out)?;
    Ok(front(out, length))
}

/// What stands at the front of a buffer, alone.
fn front(mut out: Vec<u8>, length: usize) -> Vec<u8> {
    out.truncate(length);
    out.shrink_to_fit();
    out
}

/// The length that was told, or the refusal that the number names.
fn written(told: Told) -> Result<usize, Refusal> {
    accepted(told.number).map(|()| told.length)
}

/// The refusal that a number names; none for 0.
fn accepted(number: u8) -> Result<(), Refusal> {
    if number == 0 {
        return Ok(());
    }
    // The archive's numbers are proved to be 0 and those of the refusals. Another one is no refusal of any input, and
    // must not pass for one.
    Err(Refusal::try_from(number).unwrap_or_else(|_| unreachable!("librithennaw.a told {number}")))
}
