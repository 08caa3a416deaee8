//! Arguments of calls, those that are refused among them.

use crate::calls::{Call, Post};
use crate::images;
use crate::rng::Rng;
use rithennaw::TURNS_MAX;

/// A number of turns: few, or more than the limit.
pub fn count(rng: &mut Rng) -> u64 {
    match rng.below(16) {
        0 => rng.pick(&[TURNS_MAX + 1, 1 << 32, u64::MAX]),
        1 => rng.pick(&[0, 1, 15, 16, 17]),
        2..=5 => rng.below(40) as u64,
        6 => rng.below(5_000) as u64,
        _ => rng.below(600) as u64,
    }
}

/// A number that is no label and no slot: next to the limit, with bits that are lost where it is cut, or large.
pub fn above_15(rng: &mut Rng) -> u32 {
    rng.pick(&[16, 17, 255, 256, 65_536, u32::MAX - 1, u32::MAX])
}

/// A label, or a number that is none: for an observer, a slot or a message.
pub fn label(rng: &mut Rng) -> u32 {
    match rng.below(10) {
        0 => above_15(rng),
        _ => rng.below(16) as u32,
    }
}

/// A post. Its slot, its label or both may be numbers that are none.
pub fn post(rng: &mut Rng) -> Post {
    Post { slot: label(rng), label: label(rng), value: images::value(rng) }
}

/// The calls that read an image and write, each with its arguments.
pub fn calls(rng: &mut Rng) -> [Call; 5] {
    [Call::Rewrite, Call::Turns(count(rng)), Call::Post(post(rng)), Call::View(label(rng)), Call::Sheet(label(rng))]
}
