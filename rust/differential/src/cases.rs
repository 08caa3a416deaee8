//! What is compared for a seed: an accepted image with every call and output, again after turns and posts, then the
//! image damaged in many ways.

use crate::arguments::{self, calls};
use crate::calls::{Call, Post};
use crate::compare::{Comparison, ROOM_MAX};
use crate::damage::{self, FAULTS};
use crate::images::{self, MAIL_PER_LABEL};
use crate::report::{Fact, Mismatch, Outcome};
use crate::rng::Rng;
use layout::instructions::TABLE;
use layout::{Image, VERSIONS};
use rithennaw::{IMAGE_MAX, TURNS_MAX};

/// Seeds from one sweep over the bytes of an image to the next, and from one call with about 1,000,000 turns to the
/// next.
const SWEEP_EVERY: u64 = 256;
const LIMIT_EVERY: u64 = 50;

/// Compares everything that belongs to a seed.
pub fn run(comparison: &mut Comparison, seed: u64) -> Outcome {
    comparison.begin(seed);
    let rng = &mut Rng::new(seed);
    let image = images::accepted(rng);
    let after = accepted(comparison, rng, &image.bytes())?;
    let posted = posts_in_a_row(comparison, rng, &image.used(), after)?;
    accepted(comparison, rng, &posted)?;
    damaged(comparison, rng, &image, seed)?;
    if seed % LIMIT_EVERY == 0 {
        turn_limit(comparison, &image.bytes())?;
    }
    if seed % SWEEP_EVERY == 0 {
        // The versions take turns.
        let version = VERSIONS[(seed / SWEEP_EVERY) as usize % VERSIONS.len()];
        sweep(comparison, rng, version)?;
    }
    Ok(())
}

/// Every call of an accepted image with every output, and some records. Gives the image after the turns.
fn accepted(comparison: &mut Comparison, rng: &mut Rng, image: &[u8]) -> Result<Vec<u8>, Mismatch> {
    comparison.accepted(image)?;
    let mut after = image.to_vec();
    for call in calls(rng) {
        let room = rng.between(IMAGE_MAX, ROOM_MAX);
        let agreed = comparison.call(call, image, room)?;
        if agreed.answer.number != 0 {
            // Refused for its argument, which comes ahead of the output.
            let room = rng.below(image.len());
            comparison.call(call, image, room)?;
            continue;
        }
        outputs(comparison, rng, call, image, agreed.answer.length)?;
        match call {
            Call::Turns(_) => after = agreed.bytes,
            Call::Post(_) | Call::View(_) => comparison.accepted(&agreed.bytes)?,
            Call::Rewrite | Call::Sheet(_) | Call::Assemble | Call::Disassemble => {}
        }
    }
    for _ in 0..3 {
        comparison.record(image, arguments::label(rng))?;
    }
    Ok(after)
}

/// One post more than a mailbox has room for, all of one label to one slot, each to the image that the one before it
/// gave. Gives the image after them.
fn posts_in_a_row(
    comparison: &mut Comparison, rng: &mut Rng, used: &[usize], mut image: Vec<u8>,
) -> Result<Vec<u8>, Mismatch> {
    let slot = used.get(rng.below(used.len())).map_or(0, |&slot| slot as u32);
    let label = rng.below(16) as u32;
    for _ in 0..=MAIL_PER_LABEL {
        let post = Post { slot, label, value: images::value(rng) };
        image = comparison.call(Call::Post(post), &image, IMAGE_MAX)?.bytes;
    }
    Ok(image)
}

/// An accepted call whose answer has that length, with outputs that are long enough and others that are not.
pub fn outputs(comparison: &mut Comparison, rng: &mut Rng, call: Call, input: &[u8], length: usize) -> Outcome {
    comparison.call(call, input, length)?;
    comparison.tally.fact(Fact::JustEnough);
    comparison.call(call, input, length - 1)?;
    comparison.tally.fact(Fact::ByteTooShort);
    for room in [rng.below(length), rng.between(length, IMAGE_MAX), 0] {
        comparison.call(call, input, room)?;
    }
    Ok(())
}

/// The image with a fault, each in its turn, alone and with one or two others; with random changes; and random bytes.
fn damaged(comparison: &mut Comparison, rng: &mut Rng, image: &Image, seed: u64) -> Outcome {
    let fault = &FAULTS[(seed % FAULTS.len() as u64) as usize];
    for faults in 1..=3 {
        let mut image = image.clone();
        (fault.apply)(rng, &mut image);
        for _ in 1..faults {
            let other = &FAULTS[rng.below(FAULTS.len())];
            (other.apply)(rng, &mut image);
        }
        each_call(comparison, rng, &image.bytes())?;
    }
    let mut bytes = image.bytes();
    damage::flip(rng, &mut bytes);
    each_call(comparison, rng, &bytes)?;
    let garbage = damage::garbage(rng);
    each_call(comparison, rng, &garbage)
}

/// Every call of an image that may be refused, with an output that may be too short.
fn each_call(comparison: &mut Comparison, rng: &mut Rng, image: &[u8]) -> Outcome {
    comparison.check(image)?;
    for call in calls(rng) {
        let room = rng.pick(&[0, 40, image.len().min(IMAGE_MAX), IMAGE_MAX]);
        comparison.call(call, image, room)?;
    }
    comparison.record(image, arguments::label(rng))
}

/// Numbers of turns next to the limit.
fn turn_limit(comparison: &mut Comparison, image: &[u8]) -> Outcome {
    for count in [TURNS_MAX - 1, TURNS_MAX, TURNS_MAX + 1] {
        comparison.call(Call::Turns(count), image, IMAGE_MAX)?;
    }
    Ok(())
}

/// An image of that version and of middle length, cut at every byte, and with every byte in turn next to a limit.
fn sweep(comparison: &mut Comparison, rng: &mut Rng, version: u8) -> Outcome {
    let mut image = images::accepted(rng).bytes();
    while image[0] != version || !(100..=400).contains(&image.len()) {
        image = images::accepted(rng).bytes();
    }
    for at in 0..image.len() {
        each_call(comparison, rng, &image[..at])?;
        let mut changed = image.clone();
        let byte = image[at];
        let near = [byte.wrapping_add(1), byte.wrapping_sub(1)];
        for value in [0, 1, 2, 3, 5, 6, 7, 8, 12, 13, TABLE.len() as u8, 15, 16, 17, 255].into_iter().chain(near) {
            changed[at] = value;
            comparison.check(&changed)?;
            let calls = calls(rng);
            let call = rng.pick(&calls);
            comparison.call(call, &changed, IMAGE_MAX)?;
        }
    }
    Ok(())
}
