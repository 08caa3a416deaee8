//! The observer sheet and the program `slotsheet`.

use crate::image::Image;
use crate::refusal::Refusal;
use crate::slot::Slot;
use crate::task::Task;

/// How many bytes of input `slotsheet` takes, the observer byte included.
const INPUT_LIMIT: usize = 8192;

const HEADING: &str = "slot kind label spare pc mail\n";

/// The heading and one line per used slot of an image.
pub fn sheet(image: &Image<'_>) -> String {
    let mut text = String::from(HEADING);
    for (slot, task) in Slot::all().zip(&image.tasks) {
        if let Some(task) = task {
            text += &line(slot, task);
        }
    }
    text
}

fn line(slot: Slot, task: &Task) -> String {
    let kind = task.kind as u8;
    let mail = task.mailbox.messages().len();
    let (slot, label) = (slot.number(), task.label.number());
    format!("{slot} {kind} {label} {} {} {mail}\n", task.spare, task.place)
}

/// The observer byte and the image behind it in the input of `slotsheet`.
pub fn split_input(input: &[u8]) -> Result<(u8, &[u8]), Refusal> {
    if input.len() > INPUT_LIMIT {
        return Err(Refusal::Tail);
    }
    let (&observer, image) = input.split_first().ok_or(Refusal::Short)?;
    Ok((observer, image))
}

/// The line that `slotsheet` prints on refusal.
pub fn refusal_line(refusal: Refusal) -> String {
    format!("refused {}\n", refusal.number())
}
