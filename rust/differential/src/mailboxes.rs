//! Images with mailboxes of every length, for what is told of a mailbox.

use crate::images::{self, LABELS, MAIL_MAX, MAIL_PER_LABEL};
use crate::programs;
use crate::rng::Rng;
use layout::{Image, Message, Task, SLOTS, VERSIONS};

/// After so many images all lengths, 0 to 64, have come as often, and the lengths begin again.
pub const ROUND: usize = MAIL_MAX + 1;

/// The number of images. They have a task in each slot, and of each length 64 mailboxes, half of them in each version.
pub const IMAGES: usize = 4 * ROUND;

/// Sixteen tasks of any kind, each with a mailbox one message longer than the one before it, round and round. The versions
/// take turns, a round each.
pub fn mailboxes(number: usize) -> Image {
    let rng = &mut Rng::new(number as u64);
    let version = VERSIONS[number / ROUND % VERSIONS.len()];
    let mut image = Image { version, ..Image::new(programs::program(rng, &LABELS)) };
    for slot in 0..SLOTS {
        let label = rng.pick(&LABELS);
        let task = images::task(rng, &image, label);
        let length = (SLOTS * number + slot) % ROUND;
        image.slots[slot] = Some(Task { mail: mail(rng, length), ..task });
    }
    image
}

/// So many messages, of as few labels as can be, of all or of some number in between.
fn mail(rng: &mut Rng, length: usize) -> Vec<Message> {
    let mut labels = LABELS;
    rng.shuffle(&mut labels);
    let different = rng.between(length.div_ceil(MAIL_PER_LABEL), labels.len());
    let mut mail = images::all_mail(rng, &labels[..different]);
    mail.truncate(length);
    mail
}
