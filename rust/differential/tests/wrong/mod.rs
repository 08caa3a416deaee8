//! Wrong implementations, made of the reference interpreter, for the tests that must find them.

pub mod counting;
pub mod turning;
pub mod versions;

use differential::calls::{Answer, Call, Implementation, Post, REFERENCE};
use layout::{task_length, MESSAGE_LENGTH};

/// Seeds within which each of them is found: some more than from one sweep to the next, so that each version has one.
pub const SEEDS: u64 = 300;

/// The reference interpreter with another way to answer calls.
pub fn wrong(call: fn(Call, &[u8], &mut [u8]) -> Answer) -> Implementation {
    Implementation { name: "wrong", call, ..REFERENCE }
}

pub fn right(call: Call, image: &[u8], out: &mut [u8]) -> Answer {
    (REFERENCE.call)(call, image, out)
}

/// Drops a post where four messages are waiting, whatever their labels.
pub fn common_limit() -> Implementation {
    wrong(|call, image, out| match call {
        Call::Post(post) if post.label <= 15 && waiting(image, post.slot) >= 4 => right(Call::Rewrite, image, out),
        _ => right(call, image, out),
    })
}

/// The number of messages that wait in a slot.
pub fn waiting(image: &[u8], slot: u32) -> usize {
    let record = reference::record(image, slot).len();
    image.first().map_or(0, |&version| record.saturating_sub(task_length(version)) / MESSAGE_LENGTH)
}

/// Runs a turn after each post.
pub fn post_and_turn() -> Implementation {
    wrong(|call, image, out| post_and(call, image, out, |_| Call::Turns(1)))
}

/// The answer to a call; a post is followed by another call.
pub fn post_and(call: Call, image: &[u8], out: &mut [u8], then: fn(Post) -> Call) -> Answer {
    let answer = right(call, image, out);
    let (Call::Post(post), 0) = (call, answer.number) else {
        return answer;
    };
    let posted = out[..answer.length].to_vec();
    Answer { busy: 0, delivered: answer.delivered, ..right(then(post), &posted, out) }
}
