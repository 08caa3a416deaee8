//! What the instruction `count` tells of made-up mailboxes: in both implementations the register gets how many messages are
//! receivable, and nothing else changes but the place.

use crate::calls::Call;
use crate::compare::Comparison;
use crate::images::MAIL_MAX;
use crate::mailboxes::mailboxes;
use crate::pairs::flows;
use crate::report::Outcome;
use crate::versions::ByVersion;
use layout::instructions::COUNT;
use layout::{Image, Task, SLOTS};
use std::fmt;

/// The least number of counts in each version, and of those beside messages that are not receivable.
const COUNTS_MIN: u64 = 2_000;
const BESIDE_OTHERS_MIN: u64 = 1_000;

/// Counts of what was told, by version too, and of mailboxes in which other messages waited too.
pub struct BacklogTally {
    told: [u64; MAIL_MAX + 1],
    versions: ByVersion,
    beside_others: u64,
}

/// Has each task of an image count once, and sees that the image is as it should be then.
pub fn run(comparison: &mut Comparison, tally: &mut BacklogTally, number: usize) -> Outcome {
    comparison.begin(number as u64);
    let register = number % 8;
    let mut image = counting(number, register as u8);
    let (version, before) = (image.version, image.bytes());
    for task in image.slots.iter_mut().flatten() {
        let told = task.mail.iter().filter(|message| flows(message.label, task.label)).count();
        tally.note(version, told, task);
        task.registers[register] = told as u32;
        task.place = 1;
    }
    comparison.give(Call::Turns(SLOTS as u64), &before, &image.bytes(), "a count is not how many are receivable")
}

/// Live tasks that are to count into that register, every other one at label 15.
fn counting(number: usize, register: u8) -> Image {
    let mut image = mailboxes(number);
    image.program = vec![[COUNT, register, 0, 0]];
    for (slot, task) in image.slots.iter_mut().flatten().enumerate() {
        let label = if (slot + number) % 2 == 0 { 15 } else { task.label };
        (task.kind, task.place, task.label) = (1, 0, label);
        task.clearance |= label;
    }
    image
}

impl Default for BacklogTally {
    fn default() -> BacklogTally {
        BacklogTally { told: [0; MAIL_MAX + 1], versions: ByVersion::default(), beside_others: 0 }
    }
}

impl BacklogTally {
    /// Notes what should be told to a task of an image of this version.
    fn note(&mut self, version: u8, told: usize, task: &Task) {
        self.told[told] += 1;
        self.versions.note(version);
        self.beside_others += u64::from(told < task.mail.len());
    }

    /// What is missing for the run to count: every number, both versions, and counts beside other messages.
    pub fn shortfalls(&self) -> Vec<String> {
        let never = (0..=MAIL_MAX).filter(|&told| self.told[told] == 0).map(|told| format!("count never told {told}"));
        let others = (self.beside_others < BESIDE_OTHERS_MIN)
            .then(|| format!("count beside other messages: fewer than {BESIDE_OTHERS_MIN} times"));
        never.chain(self.versions.shortfalls("count, mailboxes", COUNTS_MIN)).chain(others).collect()
    }
}

impl fmt::Display for BacklogTally {
    fn fmt(&self, f: &mut fmt::Formatter<'_>) -> fmt::Result {
        write!(f, "count: mailboxes {}, {} with other messages too", self.versions, self.beside_others)
    }
}
