//! Goes through a run turn by turn, in tests, and counts what its instructions do.

use crate::images::SLOTS;
use layout::instructions::{POLL, RAISE, SANDBOX, SEND, TAKE};
use layout::{next, task_length, MESSAGE_LENGTH};
use std::collections::BTreeSet;

/// Turns ahead of those that are counted, and those: as often each slot's.
const BEFORE: u64 = 16_000;
const COUNTED: u64 = 1_600;

/// A message that was received: its label, how many messages lay in front of it, and how many behind.
#[derive(Debug, Clone, Copy)]
pub struct Received {
    pub slot: u8,
    pub label: u8,
    pub in_front: usize,
    pub behind: usize,
}

/// What was done in some turns.
#[derive(Debug, Default)]
pub struct Tally {
    pub delivered: usize,
    pub dropped: usize,
    pub received: Vec<Received>,
    pub raised: usize,
    pub sandboxed: usize,
    /// The instructions, by their codes.
    pub codes: BTreeSet<u8>,
    /// Turns that met the same place as the turn before.
    pub in_step: usize,
}

impl Tally {
    /// What is done once the run has gone on for a while.
    pub fn of(image: &[u8]) -> Tally {
        Tally::count(rithennaw::turns(image, BEFORE).unwrap().image, COUNTED)
    }

    /// What is done in the first turns.
    pub fn of_beginning(image: &[u8]) -> Tally {
        Tally::count(image.to_vec(), COUNTED)
    }

    fn count(mut image: Vec<u8>, turns: u64) -> Tally {
        let mut tally = Tally::default();
        let mut last = None;
        for _ in 0..turns {
            let after = rithennaw::turns(&image, 1).unwrap();
            if after.busy == 1 {
                let task = NextTask::of(&image);
                tally.add(&task, after.image.len() as isize - image.len() as isize);
                tally.in_step += usize::from(last.replace(task.at) == Some(task.at));
            }
            image = after.image;
        }
        tally
    }

    /// The growth is that of the image: only mail and new tasks change its length.
    fn add(&mut self, task: &NextTask, growth: isize) {
        self.codes.insert(task.code);
        match task.code {
            SEND if growth > 0 => self.delivered += 1,
            SEND => self.dropped += 1,
            TAKE | POLL if growth < 0 => self.received.push(task.receives()),
            RAISE => self.raised += 1,
            SANDBOX => self.sandboxed += 1,
            _ => {}
        }
    }
}

/// The task whose turn is next, and its instruction: where it stands in the image, and its code.
struct NextTask<'a> {
    slot: u8,
    label: u8,
    mail: &'a [u8],
    at: usize,
    code: u8,
}

impl NextTask<'_> {
    fn of(image: &[u8]) -> NextTask<'_> {
        let slot = next::turn_slot(image);
        assert!(slot < SLOTS);
        let number = rithennaw::Slot::all().nth(slot.into()).unwrap();
        let record = rithennaw::record(image, number);
        let at = next::instruction_at(image, record).unwrap();
        NextTask { slot, label: record[1], mail: &record[task_length(image[0])..], at, code: image[at] }
    }

    /// The oldest message whose label flows to the task's.
    fn receives(&self) -> Received {
        let labels: Vec<u8> = self.mail.chunks(MESSAGE_LENGTH).map(|message| message[0]).collect();
        let in_front = labels.iter().position(|label| label & !self.label == 0).unwrap();
        Received { slot: self.slot, label: labels[in_front], in_front, behind: labels.len() - in_front - 1 }
    }
}
