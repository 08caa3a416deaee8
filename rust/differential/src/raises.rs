//! What raises do to made-up tasks of each label and clearance: in both implementations a label is joined, or the task stops,
//! and nothing else changes but the place of one that goes on. It then makes a task, which raises all in its turn.

use crate::calls::Call;
use crate::ceilings::STOPPED_BY_CLEARANCE;
use crate::compare::Comparison;
use crate::images::{self, LABELS};
use crate::report::Outcome;
use crate::rng::Rng;
use crate::versions::ByVersion;
use layout::instructions::{END, RAISE, SANDBOX};
use layout::{clearance_length, Image, Instruction, Task, SLOTS, VERSIONS};
use std::fmt;

/// The number of images: of both versions, each label with each clearance that admits it, and half of the labels to raise by.
pub const IMAGES: usize = VERSIONS.len() * 2 * 16 * 16;

/// The least number of raises in each version that join, and of those that stop.
const JOINED_MIN: u64 = 2_000;
const STOPPED_MIN: u64 = 2_000;

/// Where new tasks begin: behind a raise by each label, and a sandbox behind each.
const START: u16 = 2 * 16;

/// Counts of what should come of raises.
#[derive(Default)]
pub struct RaiseTally {
    joined: ByVersion,
    stopped: u64,
}

/// Has eight tasks raise, and make a task each if they go on, and sees that the image is as it should be then.
pub fn run(comparison: &mut Comparison, tally: &mut RaiseTally, number: usize) -> Outcome {
    comparison.begin(number as u64);
    let mut image = raising(number);
    let before = image.bytes();
    for slot in (0..SLOTS).step_by(2) {
        let task = image.task(slot);
        let by = (task.place / 2) as u8;
        if raise(task, by) {
            image.slots[slot + 1] = Some(sandbox(task, slot));
        }
    }
    tally.note(&image);
    comparison.give(Call::Turns(2 * SLOTS as u64), &before, &image.bytes(), "a raise does not do what it should")
}

/// Live tasks of the number's label and clearance in every other slot, each with room for one task and about to raise by a
/// label of its own.
fn raising(number: usize) -> Image {
    let rng = &mut Rng::new(number as u64);
    let [half, label, more] = [number / 2 % 2, number / 4 % 16, number / 64 % 16];
    let version = VERSIONS[number % VERSIONS.len()];
    let mut image = Image { version, ..Image::new(program()) };
    for slot in (0..SLOTS).step_by(2) {
        let clearance = if clearance_length(version) == 0 { 15 } else { label | more } as u8;
        let (mail, place) = (images::mail(rng, &LABELS), 2 * (slot + half) as u16);
        let task = images::task(rng, &image, label as u8);
        image.slots[slot] = Some(Task { kind: 1, clearance, spare: 1, place, mail, ..task });
    }
    image
}

fn program() -> Vec<Instruction> {
    let raises = LABELS.iter().flat_map(|&label| [[RAISE, label, 0, 0], [SANDBOX, 1, START as u8, 1]]);
    raises.chain([[RAISE, 15, 0, 0], [END, 0, 0, 0]]).collect()
}

/// A raise by that label, as U5 has it. Tells whether the task goes on.
fn raise(task: &mut Task, by: u8) -> bool {
    let within = (task.label | by) & !task.clearance == 0;
    if within {
        (task.label, task.place) = (task.label | by, task.place + 1);
    } else {
        task.kind = STOPPED_BY_CLEARANCE;
    }
    within
}

/// The task that this one makes, after its first raise.
fn sandbox(task: &mut Task, slot: usize) -> Task {
    (task.place, task.spare, task.registers[1]) = (task.place + 1, 0, slot as u32 + 1);
    let registers = [slot as u32, 0, 0, 0, 0, 0, 0, 0];
    let mut made = Task { label: task.label, clearance: task.clearance, place: START, registers, ..Task::default() };
    raise(&mut made, 15);
    made
}

impl RaiseTally {
    /// Notes what should have come of an image: each task has raised once.
    fn note(&mut self, image: &Image) {
        for task in image.slots.iter().flatten() {
            match task.kind {
                STOPPED_BY_CLEARANCE => self.stopped += 1,
                _ => self.joined.note(image.version),
            }
        }
    }

    /// What is missing for the run to count.
    pub fn shortfalls(&self) -> Vec<String> {
        let stopped = (self.stopped < STOPPED_MIN).then(|| format!("raise, stopped: fewer than {STOPPED_MIN}"));
        self.joined.shortfalls("raise, joined in images", JOINED_MIN).chain(stopped).collect()
    }
}

impl fmt::Display for RaiseTally {
    fn fmt(&self, f: &mut fmt::Formatter<'_>) -> fmt::Result {
        write!(f, "raise: joined {}, stopped {}", self.joined, self.stopped)
    }
}
