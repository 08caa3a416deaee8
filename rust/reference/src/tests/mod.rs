//! Images for the tests and what turns make of them. Document 01's examples and made-up images are tried on this crate
//! and the monitor alike, by the crate `differential`.

mod calls;
mod ceilings;
mod listings;
mod looks;
mod posts;
mod refusals;
mod searches;
mod steps;
mod versions;

use std::ops::RangeInclusive;

use crate::turns;
use layout::{Image, Instruction, Message, Task, VERSIONS};

/// More room than the longest answer needs.
const ROOM: usize = 8192;

/// A byte that tests put where nothing may be written.
const UNTOUCHED: u8 = 0xAA;

const END: Instruction = [0, 0, 0, 0];

/// By code, the least value that each operand may not have, in a program of two instructions.
const OPERAND_LIMITS: [[u16; 3]; 14] = [
    [1, 1, 1],
    [8, 256, 256],
    [8, 8, 1],
    [8, 8, 8],
    [8, 8, 8],
    [2, 1, 1],
    [8, 2, 1],
    [16, 1, 1],
    [8, 16, 8],
    [8, 8, 1],
    [8, 8, 2],
    [8, 2, 16],
    [8, 8, 1],
    [8, 1, 1],
];

const SANDBOX: u8 = 11;

/// Each code with each value of each operand, the others being accepted, and its number in a program of two
/// instructions.
fn judged_instructions() -> Vec<(Instruction, u8)> {
    let mut judged = Vec::new();
    for (code, limits) in (0u8..).zip(OPERAND_LIMITS) {
        for (operand, byte) in (0..3).flat_map(|operand| (0..=255u8).map(move |byte| (operand, byte))) {
            let mut instruction = [code, 0, 0, u8::from(code == SANDBOX)];
            instruction[1 + operand] = byte;
            let no_size = code == SANDBOX && instruction[3] == 0;
            let number = if u16::from(byte) < limits[operand] && !no_size { 0 } else { 6 };
            judged.push((instruction, number));
        }
    }
    judged
}

/// An image of this program with live tasks in these slots.
fn image(program: &[Instruction], used: &[usize]) -> Image {
    let mut image = Image::new(program.to_vec());
    used.iter().for_each(|&slot| image.slots[slot] = Some(Task::default()));
    image
}

/// The image in each version.
fn in_versions(image: &Image) -> [Image; VERSIONS.len()] {
    VERSIONS.map(|version| Image { version, ..image.clone() })
}

/// The bytes of the image in each version.
fn bytes_in_versions(image: &Image) -> [Vec<u8>; VERSIONS.len()] {
    in_versions(image).map(|image| image.bytes())
}

/// The kinds of tasks in an image of this version.
fn kinds(version: u8) -> RangeInclusive<u8> {
    1..=if version == 1 { 5 } else { 6 }
}

/// Every pair of a label and a clearance.
fn labels_and_clearances() -> impl Iterator<Item = (u8, u8)> {
    (0..16).flat_map(|label| (0..16).map(move |clearance| (label, clearance)))
}

/// Whether each bit of the label is in the clearance, too.
fn is_subset(label: u8, clearance: u8) -> bool {
    (0..4).all(|bit| label >> bit & 1 <= clearance >> bit & 1)
}

/// Messages: label, sender and value of each.
fn mail<const N: usize>(messages: [(u8, u8, u32); N]) -> Vec<Message> {
    messages.map(|(label, sender, value)| Message { label, sender, value }).to_vec()
}

/// The image after some turns, and the busy count.
fn after(image: &Image, count: u64) -> (Vec<u8>, u64) {
    turned(&image.bytes(), count)
}

/// The bytes of an image after some turns, and the busy count.
fn turned(bytes: &[u8], count: u64) -> (Vec<u8>, u64) {
    let mut out = vec![UNTOUCHED; ROOM];
    let answer = turns(bytes, count, &mut out);
    assert_eq!(answer.number, 0);
    (written(answer.length, &out), answer.busy)
}

/// In each version, so many turns make the second image of the first, with this busy count.
fn assert_after(before: &Image, count: u64, expected: &Image, busy: u64) {
    for (before, expected) in in_versions(before).iter().zip(bytes_in_versions(expected)) {
        assert_eq!(after(before, count), (expected, busy));
    }
}

/// The bytes of an answer of this length; nothing may have been written behind them.
fn written(length: usize, out: &[u8]) -> Vec<u8> {
    assert!(out[length..].iter().all(|&byte| byte == UNTOUCHED));
    out[..length].to_vec()
}

/// The image B of the checked examples.
fn b() -> Image {
    let mut b = image(&[[8, 1, 0, 2], END, [9, 3, 4, 0], END], &[0, 5]);
    b.task(0).registers = [0, 5, 700, 0, 0, 0, 0, 0];
    b.task(5).place = 2;
    b
}
