//! The scope document's image B, and what both implementations give and tell.

use differential::calls::{Answer, Call, Implementation, Post, BOTH};
use layout::{Image, Task};

/// A live task with label 0, no spare, no mail and registers 0.
pub fn live(place: u16) -> Task {
    Task { place, ..Task::default() }
}

/// The scope document's image B.
pub fn b() -> Image {
    let mut image = Image::new(vec![[0x08, 1, 0, 2], [0, 0, 0, 0], [0x09, 3, 4, 0], [0, 0, 0, 0]]);
    image.slots[0] = Some(Task { registers: [0, 5, 700, 0, 0, 0, 0, 0], ..live(0) });
    image.slots[5] = Some(live(2));
    image
}

/// What a call gives with an output that is long enough: its bytes and busy count, or its number.
fn give(implementation: Implementation, call: Call, image: &Image) -> Result<(Vec<u8>, u64), u8> {
    let mut out = vec![0; rithennaw::IMAGE_MAX];
    let answer = (implementation.call)(call, &image.bytes(), &mut out);
    out.truncate(answer.length);
    match answer.number {
        0 => Ok((out, answer.busy)),
        number => Err(number),
    }
}

/// Both implementations give that.
pub fn both_give(call: Call, image: &Image, expected: Result<(Vec<u8>, u64), u8>) {
    for implementation in BOTH {
        assert_eq!(give(implementation, call, image), expected, "{call:?} of the {}", implementation.name);
    }
}

/// After that many turns the image is `after`.
pub fn turns_give(image: &Image, count: u64, after: &Image, busy: u64) {
    both_give(Call::Turns(count), image, Ok((after.bytes(), busy)));
}

/// Both implementations tell that number of the image.
fn both_check(image: &Image, number: u8) {
    for implementation in BOTH {
        assert_eq!((implementation.check)(&image.bytes()), number, "check of the {}", implementation.name);
    }
}

pub fn accepted(image: &Image) {
    both_check(image, 0);
    both_give(Call::Rewrite, image, Ok((image.bytes(), 0)));
}

pub fn refused(image: &Image, number: u8) {
    both_check(image, number);
    both_give(Call::Rewrite, image, Err(number));
}

/// Both implementations tell of that post that its message was delivered or dropped, and write `after`.
pub fn post_gives(image: &Image, post: Post, after: &Image, delivered: bool) {
    let told = Answer { length: after.bytes().len(), delivered, ..Answer::default() };
    for implementation in BOTH {
        let mut out = vec![0; rithennaw::IMAGE_MAX];
        let answer = (implementation.call)(Call::Post(post), &image.bytes(), &mut out);
        assert_eq!(answer, told, "{post:?} of the {}", implementation.name);
        assert_eq!(out[..answer.length], after.bytes(), "{post:?} of the {}", implementation.name);
    }
}
