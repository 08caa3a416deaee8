//! Calls of one implementation: what one gives, and two that are to tell and leave the same.

use crate::calls::{Call, Implementation};
use crate::report::hex;
use crate::rng::Rng;
use rithennaw::IMAGE_MAX;

/// A call, and the image that it reads.
pub type CallOf<'a> = (Call, &'a [u8]);

impl Implementation {
    /// The image that a call gives; anything but number 0 is a fault.
    pub fn give(&self, call: Call, image: &[u8]) -> Result<Vec<u8>, String> {
        let mut output = vec![0; IMAGE_MAX];
        let answer = (self.call)(call, image, &mut output);
        output.truncate(answer.length);
        match answer.number {
            0 => Ok(output),
            _ => Err(format!("{call:?} of {} tells {answer:?}", hex(image))),
        }
    }

    /// Makes both calls, with outputs of equal length and content: they tell the same and leave the same output, and their
    /// number is `number`. Gives the length told.
    pub fn alike(&self, rng: &mut Rng, calls: [CallOf; 2], room: usize, number: u8) -> Result<usize, String> {
        let mut pattern = vec![0; room];
        rng.fill(&mut pattern);
        let [first, second] = calls.map(|(call, image)| {
            let mut output = pattern.clone();
            ((self.call)(call, image, &mut output), output)
        });
        if first == second && first.0.number == number {
            return Ok(first.0.length);
        }
        let [first, second] = [(calls[0].0, first), (calls[1].0, second)]
            .map(|(call, (answer, output))| format!("{call:?}: {answer:?} {}", hex(&output)));
        Err(format!("output of {room} bytes, number {number} expected\n{first}\nand\n{second}"))
    }

    /// The same of accepted calls, with outputs that are long, just long enough and too short.
    pub fn alike_in_every_output(&self, rng: &mut Rng, calls: [CallOf; 2]) -> Result<(), String> {
        let length = self.alike(rng, calls, IMAGE_MAX, 0)?;
        self.alike(rng, calls, length, 0)?;
        for room in [length.saturating_sub(1), rng.below(length), 0] {
            self.alike(rng, calls, room, 13)?;
        }
        Ok(())
    }
}
