//! What the laws of desks are tried on for a seed.

use crate::calls::Post;
use crate::images::{self, LABELS};
use crate::lists::{self, Step};
use crate::observers::OBSERVERS;
use crate::pairs;
use crate::rng::Rng;
use layout::{Image, SLOTS};
use rithennaw::TURNS_MAX;

/// Seeds from one run of 1,000,000 turns to the next: an odd number, so that such runs go through the observers.
const LIMIT_EVERY: u64 = 49;

/// The host's image and what is done with it and with the view.
pub struct Case {
    /// Whose desk it is.
    pub observer: u8,
    /// Another observer, who views the view.
    pub other: u8,
    pub image: Vec<u8>,
    /// The turns of a run without posts.
    pub turns: u64,
    /// Posts, each of which is made alone.
    pub posts: Vec<Post>,
    /// What the desk and what the host carry out: as many turns, and the same posts that the observer sees.
    pub lists: [Vec<Step>; 2],
}

impl Case {
    /// A made-up case. Seeds go through the observers.
    pub fn made_up(rng: &mut Rng, seed: u64) -> Case {
        let observer = (seed % OBSERVERS as u64) as u8;
        let image = image(rng, observer);
        let plan = lists::plan(rng, observer, image.turn_slot);
        Case {
            observer,
            other: rng.byte_below(OBSERVERS as u16),
            image: image.bytes(),
            turns: if seed % LIMIT_EVERY == 0 { TURNS_MAX } else { plan.turns },
            posts: posts(rng, observer, &image.used()),
            lists: [0, 1].map(|_| lists::list(rng, &plan, observer)),
        }
    }
}

/// An image of any kind, or one of which the observer sees some tasks and does not see others.
fn image(rng: &mut Rng, observer: u8) -> Image {
    if rng.one_in(4) {
        return images::accepted(rng);
    }
    let [image, _] = pairs::pair(rng, observer);
    image
}

/// Posts to slots that are often used: two that the observer sees, and two of any label.
fn posts(rng: &mut Rng, observer: u8, used: &[usize]) -> Vec<Post> {
    let visible = lists::visible(observer);
    let labels = [&visible[..], &visible, &LABELS, &LABELS].map(|labels| rng.pick(labels));
    let post = |label: u8| {
        let slot = if used.is_empty() || rng.one_in(4) { rng.below(SLOTS) } else { rng.pick(used) };
        Post { slot: slot as u32, label: label.into(), value: images::value(rng) }
    };
    labels.map(post).to_vec()
}
