//! One call made of two implementations: what they tell, every byte of the output and around it, and what they read.

use crate::calls::{Answer, Call, Implementation};
use crate::ceilings;
use crate::posts::{self, PostOutcome};
use crate::report::{hex, Mismatch, Outcome, RecordOutcome, Tally};
use crate::rng::Rng;
use rithennaw::IMAGE_MAX;
use std::fmt;

/// Bytes ahead of the output and behind it that no call may touch.
const AROUND: usize = 32;

/// The longest output: some bytes more than every answer.
pub const ROOM_MAX: usize = IMAGE_MAX + 8;

/// What a call left: its answer, and the output with the bytes around it.
struct Made {
    answer: Answer,
    output: Vec<u8>,
}

/// What both gave.
pub struct Agreed {
    pub answer: Answer,
    /// The bytes of the answer.
    pub bytes: Vec<u8>,
}

/// Compares calls of two implementations and counts them.
pub struct Comparison {
    implementations: [Implementation; 2],
    seed: u64,
    /// What outputs, and the bytes around them, hold before a call: random bytes, others for each seed.
    pattern: Vec<u8>,
    pub tally: Tally,
}

impl Comparison {
    pub fn new(implementations: [Implementation; 2]) -> Comparison {
        let pattern = vec![0; AROUND + ROOM_MAX + AROUND];
        Comparison { implementations, seed: 0, pattern, tally: Tally::default() }
    }

    /// Begins with what belongs to a seed.
    pub fn begin(&mut self, seed: u64) {
        self.seed = seed;
        Rng::new(seed).fill(&mut self.pattern);
    }

    /// Makes a call of both with an output of `room` bytes, at most `ROOM_MAX`.
    pub fn call(&mut self, call: Call, input: &[u8], room: usize) -> Result<Agreed, Mismatch> {
        let before = &self.pattern[..AROUND + room + AROUND];
        let lent = input.to_vec();
        let [first, second] = self.implementations.map(|implementation| make(implementation, call, &lent, before));
        self.tally.compared += 1;
        let posted = post_outcome(call, input, first.answer);
        let fault = if lent != input {
            Some("the input has changed")
        } else if first.answer != second.answer {
            Some("different answers")
        } else if first.output != second.output {
            Some("different bytes")
        } else {
            broken_rule(&first, before, posted)
        };
        if let Some(fault) = fault {
            let made = [first, second].map(|made| format!("{:?} {}", made.answer, hex(&made.output[AROUND..])));
            return Err(self.mismatch(fault, &format!("{call:?}, output of {room} bytes"), input, made));
        }
        self.tally.call(call, first.answer);
        posted.into_iter().for_each(|outcome| self.tally.post(outcome));
        let bytes = first.output[AROUND..][..first.answer.length].to_vec();
        if let (Call::Turns(_), 0) = (call, first.answer.number) {
            ceilings::facts(input, &bytes).into_iter().for_each(|fact| self.tally.fact(fact));
        }
        Ok(Agreed { answer: first.answer, bytes })
    }

    /// Has both check an accepted image and write it again, which gives 0 and its own bytes.
    pub fn accepted(&mut self, image: &[u8]) -> Outcome {
        let number = self.check(image)?;
        if number != 0 {
            return Err(self.mismatch(
                "an accepted image is refused",
                "Check",
                image,
                [number; 2].map(|n| n.to_string()),
            ));
        }
        self.give(Call::Rewrite, image, image, "an accepted image is not given back")
    }

    /// Has both make a call that is accepted and gives these bytes; anything else is that fault.
    pub fn give(&mut self, call: Call, input: &[u8], bytes: &[u8], fault: &str) -> Outcome {
        let agreed = self.call(call, input, ROOM_MAX)?;
        if agreed.answer.number == 0 && agreed.bytes == bytes {
            return Ok(());
        }
        let gave = format!("{:?} {}", agreed.answer, hex(&agreed.bytes));
        Err(self.mismatch(fault, &format!("{call:?}"), input, [gave.clone(), gave]))
    }

    /// Asks both for the image's number.
    pub fn check(&mut self, image: &[u8]) -> Result<u8, Mismatch> {
        let number = self.ask("Check", image, |implementation, image| (implementation.check)(image))?;
        self.tally.check(image, number);
        Ok(number)
    }

    /// Asks both where the record of a slot stands.
    pub fn record(&mut self, image: &[u8], slot: u32) -> Outcome {
        let call = format!("Record({slot})");
        let part = self.ask(&call, image, |implementation, image| (implementation.record)(image, slot))?;
        let refused = reference::check(image) != 0;
        self.tally.record(match (part.is_empty(), refused, slot > 15) {
            (false, ..) => RecordOutcome::Found,
            (true, true, _) => RecordOutcome::RefusedImage,
            (true, false, true) => RecordOutcome::SlotAbove15,
            (true, false, false) => RecordOutcome::UnusedSlot,
        });
        Ok(())
    }

    /// Makes a call that writes nothing of both, and gives what both told.
    fn ask<T: PartialEq + fmt::Debug>(
        &mut self, call: &str, image: &[u8], ask: impl Fn(Implementation, &[u8]) -> T,
    ) -> Result<T, Mismatch> {
        let lent = image.to_vec();
        let [first, second] = self.implementations.map(|implementation| ask(implementation, &lent));
        self.tally.compared += 1;
        if first == second && lent == image {
            return Ok(first);
        }
        let told = [first, second].map(|told| format!("{told:?}"));
        Err(self.mismatch("different answers, or the image has changed", call, image, told))
    }

    fn mismatch(&self, fault: &str, call: &str, input: &[u8], given: [String; 2]) -> Mismatch {
        let [first, second] = self.implementations.map(|implementation| implementation.name);
        let [gives, other_gives] = given;
        let (seed, input) = (self.seed, hex(input));
        Mismatch(format!("{fault}\nseed {seed}\ncall {call}\ninput {input}\n{first}: {gives}\n{second}: {other_gives}"))
    }
}

/// Makes the call with an output amid a copy of `before`.
fn make(implementation: Implementation, call: Call, input: &[u8], before: &[u8]) -> Made {
    let mut output = before.to_vec();
    let end = output.len() - AROUND;
    let answer = (implementation.call)(call, input, &mut output[AROUND..end]);
    Made { answer, output }
}

/// What should become of a post that is accepted; none for other calls.
fn post_outcome(call: Call, input: &[u8], answer: Answer) -> Option<PostOutcome> {
    match call {
        Call::Post(post) if answer.number == 0 => {
            Some(posts::outcome(input, reference::record(input, post.slot), post.label))
        }
        _ => None,
    }
}

/// The rule of the papers that both broke alike, if one: a refused call tells 0 and dropped and writes nothing, an
/// accepted one writes only the bytes of its answer, and it is a post that delivers, wherever nothing is in its way.
fn broken_rule(made: &Made, before: &[u8], posted: Option<PostOutcome>) -> Option<&'static str> {
    let Answer { number, length, delivered, .. } = made.answer;
    let room = made.output.len() - 2 * AROUND;
    if number != 0 && made.answer != Answer::refused(number) {
        Some("a refused call tells a length, a busy count or a delivery")
    } else if delivered != (posted == Some(PostOutcome::Delivered)) {
        Some("a message is delivered or dropped without cause")
    } else if length > room {
        Some("the answer is longer than the output")
    } else if made.output[..AROUND] != before[..AROUND] || made.output[AROUND + length..] != before[AROUND + length..] {
        Some("bytes outside the answer have changed")
    } else {
        None
    }
}
