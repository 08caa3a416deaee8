//! Pairs of accepted images of one version that show an observer the same and differ in hidden tasks and hidden mail.

use crate::images::{self, LABELS};
use crate::programs;
use crate::rng::Rng;
use layout::{Image, SLOTS, VERSIONS};

/// Whether each bit of `label` is also in `observer`.
pub fn flows(label: u8, observer: u8) -> bool {
    label & !observer == 0
}

/// Two images with the same view for the observer. For 15, from whom nothing is hidden, they are the same.
pub fn pair(rng: &mut Rng, observer: u8) -> [Image; 2] {
    let (visible, hidden): (Vec<u8>, Vec<u8>) = LABELS.iter().partition(|&&label| flows(label, observer));
    let hidden_or_any = if hidden.is_empty() { &visible } else { &hidden };
    let labels = [rng.pick(&visible), rng.pick(&visible), rng.pick(hidden_or_any)];
    let mut shown = Image { version: rng.pick(&VERSIONS), ..Image::new(programs::program(rng, &labels)) };
    shown.turn_slot = rng.byte_below(16);
    let every: Vec<usize> = (0..SLOTS).collect();
    let seen = images::some_slots(rng, &every);
    let unseen: Vec<usize> = every.into_iter().filter(|slot| !seen.contains(slot)).collect();
    // The slots that hidden tasks may stand in: no visible task has one of them in its spare.
    let open = if hidden.is_empty() { Vec::new() } else { images::some_slots(rng, &unseen) };
    images::add_tasks(rng, &mut shown, &seen, &labels[..2], &visible);
    images::give_spares(rng, &mut shown, &seen, &[&seen[..], &open].concat());
    [0, 1].map(|_| with_hidden(rng, &shown, &hidden, &open))
}

/// The image with hidden tasks in some slots of `open`, and hidden mail among that of the visible tasks.
fn with_hidden(rng: &mut Rng, shown: &Image, hidden: &[u8], open: &[usize]) -> Image {
    let mut image = shown.clone();
    for task in image.slots.iter_mut().flatten() {
        for message in images::mail(rng, hidden) {
            task.mail.insert(rng.below(task.mail.len() + 1), message);
        }
    }
    let slots = images::some_slots(rng, open);
    images::add_tasks(rng, &mut image, &slots, hidden, &LABELS);
    let used = image.used();
    images::give_spares(rng, &mut image, &slots, &used);
    image
}
