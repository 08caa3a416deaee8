//! Times a call of the monitor beside the same call of the reference, and compares all that they tell and write.

use crate::clock::cpu_time;
use differential::calls::{Answer, Call, Implementation};
use rithennaw::IMAGE_MAX;
use std::hint::black_box;
use std::time::Duration;

/// How often each is timed in a round, one after the other; the best time counts.
pub const RUNS: usize = 8;

/// The best times of a call, and what it told and wrote.
pub struct Measured {
    pub monitor: Duration,
    pub reference: Duration,
    pub answer: Answer,
    pub written: Vec<u8>,
}

/// Times `repeats` calls in a row by the monitor and the reference; an error if a call is refused or the two differ.
pub fn measure(both: [Implementation; 2], call: Call, input: &[u8], repeats: u32) -> Result<Measured, String> {
    let [mut monitor, mut reference] = [Duration::MAX; 2];
    let mut last = None;
    for _ in 0..RUNS {
        let [(monitor_time, monitor_gave), (reference_time, reference_gave)] =
            both.map(|implementation| timed(implementation, call, input, repeats));
        monitor = monitor.min(monitor_time);
        reference = reference.min(reference_time);
        if monitor_gave != reference_gave {
            return Err(format!("{call:?}: the monitor and the reference differ"));
        }
        last = Some(monitor_gave);
    }
    let (answer, mut written) = last.ok_or("nothing was measured")?;
    if answer.number != 0 {
        return Err(format!("{call:?}: refused {}", answer.number));
    }
    written.truncate(answer.length);
    Ok(Measured { monitor, reference, answer, written })
}

/// The time of these calls, what the last one told, and the whole output.
pub fn timed(implementation: Implementation, call: Call, input: &[u8], repeats: u32) -> (Duration, (Answer, Vec<u8>)) {
    let mut out = vec![0; IMAGE_MAX];
    let mut answer = None;
    let began = cpu_time();
    for _ in 0..repeats {
        answer = Some((implementation.call)(call, black_box(input), black_box(&mut out)));
    }
    let time = cpu_time() - began;
    (time, (answer.expect("at least one call"), out))
}

#[cfg(test)]
mod tests {
    use super::{measure, Answer, Call, Implementation};
    use differential::calls::REFERENCE;

    const ONE_BYTE: Answer = Answer { number: 0, length: 1, busy: 0, delivered: false };

    fn answering(call: fn(Call, &[u8], &mut [u8]) -> Answer) -> Implementation {
        Implementation { call, ..REFERENCE }
    }

    fn is_measured(monitor: Implementation, reference: Implementation) -> bool {
        measure([monitor, reference], Call::Rewrite, &[], 1).is_ok()
    }

    #[test]
    fn equal_answers_are_measured() {
        let one_byte = answering(|_, _, _| ONE_BYTE);
        assert!(is_measured(one_byte, one_byte));
    }

    #[test]
    fn a_difference_in_any_byte_of_the_output_is_a_fault() {
        let last_byte_too = answering(|_, _, out| {
            *out.last_mut().unwrap() = 1;
            ONE_BYTE
        });
        assert!(!is_measured(last_byte_too, answering(|_, _, _| ONE_BYTE)));
    }

    #[test]
    fn a_difference_in_the_busy_count_is_a_fault() {
        let busy = answering(|_, _, _| Answer { busy: 1, ..ONE_BYTE });
        assert!(!is_measured(busy, answering(|_, _, _| ONE_BYTE)));
    }

    #[test]
    fn a_call_that_both_refuse_is_a_fault() {
        let refused = answering(|_, _, _| Answer::refused(3));
        assert!(!is_measured(refused, refused));
    }
}
