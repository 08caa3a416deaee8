//! What becomes of a post, told from the record of its slot.

use crate::ceilings::STOPPED_BY_CLEARANCE;
use crate::images::MAIL_PER_LABEL;
use layout::records::messages;
use std::ops::Range;

/// What becomes of an accepted post: its message is delivered, or dropped for one of four reasons.
#[derive(Debug, Clone, Copy, PartialEq, Eq)]
pub enum PostOutcome {
    Delivered,
    UnusedSlot,
    StoppedTask,
    StoppedByClearance,
    FourOfLabel,
}

/// The kind of a live task.
const LIVE: u8 = 1;

/// What becomes of a message of that label, posted to the slot whose record is this part of the image; an unused slot has
/// an empty one.
pub fn outcome(image: &[u8], part: Range<usize>, label: u32) -> PostOutcome {
    let record = &image[part];
    let Some(&kind) = record.first() else { return PostOutcome::UnusedSlot };
    let messages = messages(image[0], record);
    match kind {
        STOPPED_BY_CLEARANCE => PostOutcome::StoppedByClearance,
        LIVE if messages.filter(|message| u32::from(message[0]) == label).count() < MAIL_PER_LABEL => {
            PostOutcome::Delivered
        }
        LIVE => PostOutcome::FourOfLabel,
        _ => PostOutcome::StoppedTask,
    }
}
