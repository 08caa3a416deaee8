//! Turns in which one instruction is carried out in another way than it should.

use super::right;
use differential::calls::{Answer, Call};
use layout::next;

/// A live task whose turn it is: its slot, and where its instruction stands in the image.
pub struct Turning {
    pub slot: u32,
    pub at: usize,
}

/// Turns one by one, in which a task that is about to carry out this code does so in another way. More than 600 are carried
/// out at once.
pub fn turn_by_turn(
    call: Call, image: &[u8], out: &mut [u8], code: u8, other: fn(&Turning, &[u8]) -> Vec<u8>,
) -> Answer {
    let answer = right(call, image, &mut out.to_vec());
    let (Call::Turns(turns @ 1..=600), 0) = (call, answer.number) else {
        return right(call, image, out);
    };
    let mut image = image.to_vec();
    for _ in 0..turns {
        image = about_to(&image, code).map_or_else(|| one_turn(&image), |turning| other(&turning, &image));
    }
    Answer { busy: answer.busy, ..right(Call::Rewrite, &image, out) }
}

/// The image after a turn.
pub fn one_turn(image: &[u8]) -> Vec<u8> {
    let mut out = vec![0; rithennaw::IMAGE_MAX];
    let length = right(Call::Turns(1), image, &mut out).length;
    out.truncate(length);
    out
}

/// The live task whose turn it is, if it is about to carry out this code.
fn about_to(image: &[u8], code: u8) -> Option<Turning> {
    let slot = u32::from(next::turn_slot(image));
    let task = &image[reference::record(image, slot)];
    let live = task.first() == Some(&1);
    let at = live.then(|| next::instruction_at(image, task)).flatten()?;
    (image[at] == code).then_some(Turning { slot, at })
}
