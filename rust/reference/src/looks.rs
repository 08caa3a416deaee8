//! What the test program `lookprobe` prints: how far the count of each label looks into each mailbox.

use crate::image::Image;
use crate::label::Label;
use crate::mailbox::Look;
use crate::task::Task;

/// The two bytes of each label of each slot, slot after slot.
pub fn looks(image: &Image<'_>) -> Vec<u8> {
    let slot = |task| Label::all().flat_map(move |label| look(task, label));
    image.tasks.iter().map(Option::as_ref).flat_map(slot).collect()
}

/// Whether there is room for the label and how many messages the count looks at, at most 64; live or not, a task has a
/// mailbox, and an unused slot has none.
fn look(task: Option<&Task>, label: Label) -> [u8; 2] {
    task.map_or([0, 0], |task| {
        let Look { room, looked } = task.mailbox.look(label);
        [room.into(), looked as u8]
    })
}
