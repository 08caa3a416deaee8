//! A list of calls carried out by an implementation: the image that it ends with, and what was done on the way.

use crate::calls::{Answer, Call, Implementation};
use crate::lists::{self, Plan, PostAt, Room, Step};
use crate::posts::{self, PostOutcome};
use crate::report::hex;
use crate::rng::Rng;
use layout::Image;
use rithennaw::IMAGE_MAX;

/// An image and a list of calls that starts from it.
pub struct Run {
    pub start: Vec<u8>,
    pub list: Vec<Step>,
}

/// An accepted post of a list.
pub struct Posted {
    pub at: PostAt,
    pub outcome: PostOutcome,
    /// The label of the task in its slot, if there is one.
    pub met: Option<u8>,
}

/// The image that a list ends with, and what its accepted calls did.
pub struct End {
    pub image: Vec<u8>,
    pub turns: u64,
    pub busy: u64,
    pub posts: Vec<Posted>,
}

impl Run {
    /// The image with a made-up list that has what the plan has.
    pub fn made_up(rng: &mut Rng, observer: u8, image: &Image, plan: &Plan) -> Run {
        Run { start: image.bytes(), list: lists::list(rng, plan, observer) }
    }

    /// Carries out the list: an accepted call's image is the next one's, and a refused call leaves the image as it was.
    pub fn carry_out(&self, implementation: Implementation) -> Result<End, String> {
        let mut end = End { image: self.start.clone(), turns: 0, busy: 0, posts: Vec::new() };
        for step in &self.list {
            let mut output = vec![0; room(implementation, step, &end.image)];
            let answer = (implementation.call)(step.call, &end.image, &mut output);
            if answer.number != step.number() {
                return Err(format!("{step:?} of {} tells {answer:?}", hex(&end.image)));
            }
            if answer.number == 0 {
                output.truncate(answer.length);
                end.note(implementation, step.call, answer);
                end.image = output;
            }
        }
        Ok(end)
    }
}

impl End {
    /// Notes an accepted call of the image so far.
    fn note(&mut self, implementation: Implementation, call: Call, answer: Answer) {
        match call {
            Call::Turns(count) => {
                self.turns += count;
                self.busy += answer.busy;
            }
            Call::Post(post) => {
                let part = (implementation.record)(&self.image, post.slot);
                let outcome = posts::outcome(&self.image, part.clone(), post.label);
                let met = self.image[part].get(1).copied();
                self.posts.push(Posted { at: PostAt { turns: self.turns, post }, outcome, met });
            }
            Call::Rewrite | Call::View(_) | Call::Sheet(_) | Call::Assemble | Call::Disassemble => {}
        }
    }
}

/// The length of a step's output.
fn room(implementation: Implementation, step: &Step, image: &[u8]) -> usize {
    let length = || (implementation.call)(step.call, image, &mut [0; IMAGE_MAX]).length;
    match step.room {
        Room::Long => IMAGE_MAX,
        Room::JustEnough => length(),
        Room::TooShort => length().saturating_sub(1),
    }
}
