//! Turns in which a task counts in another way than it should.

use super::turning::{one_turn, turn_by_turn, Turning};
use super::{waiting, wrong};
use differential::calls::Implementation;
use layout::instructions::COUNT;
use layout::registers_at;

/// Counts every message that waits, receivable or not.
pub fn all_counted() -> Implementation {
    wrong(|call, image, out| turn_by_turn(call, image, out, COUNT, count_all))
}

/// A turn in which the register gets how many messages wait.
fn count_all(turning: &Turning, image: &[u8]) -> Vec<u8> {
    let mut after = one_turn(image);
    let mail = waiting(&after, turning.slot) as u32;
    let register = registers_at(image[0]) + 4 * usize::from(image[turning.at + 1]);
    let task = reference::record(&after, turning.slot);
    after[task][register..][..4].copy_from_slice(&mail.to_be_bytes());
    after
}
