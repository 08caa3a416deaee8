//! The work whose instructions are counted: calls of one implementation with an input, and nothing else that varies.

use crate::single_calls::named;
use differential::calls::{Call, BOTH};
use rithennaw::IMAGE_MAX;
use std::hint::black_box;
use std::io::Read;

/// The word that makes a program do such work.
pub const COUNT: &str = "count";

/// Turns in one call, or calls in a row.
#[derive(Debug, Clone, Copy, PartialEq, Eq)]
pub enum Work {
    Turns(u64),
    Calls { name: &'static str, number: u64 },
}

impl Work {
    /// The words by which a program is told its work, behind the implementation's name.
    pub fn words(self) -> [String; 2] {
        match self {
            Work::Turns(number) => [TURNS.into(), number.to_string()],
            Work::Calls { name, number } => [name.into(), number.to_string()],
        }
    }
}

/// The name of turns in one call; no call that is measured by itself has it.
const TURNS: &str = "turns";

/// Does the work that the words say, with the input that standard input has. The input is not made here: `imagetext` keeps
/// names in hash tables, whose keys are random, so its instructions are not the same twice.
pub fn run(implementation: &str, name: &str, number: &str) -> Result<(), String> {
    let mut input = Vec::new();
    std::io::stdin().read_to_end(&mut input).map_err(|error| format!("standard input: {error}"))?;
    work(implementation, name, number, &input)
}

fn work(implementation: &str, name: &str, number: &str, input: &[u8]) -> Result<(), String> {
    let found = BOTH.iter().find(|found| found.name == implementation);
    let implementation = found.ok_or_else(|| format!("no implementation is called `{implementation}`"))?;
    let number: u64 = number.parse().map_err(|_| format!("`{number}` is not a number"))?;
    let (call, repeats) = match name {
        TURNS => (Call::Turns(number), 1),
        _ => (named(name).ok_or_else(|| format!("no call is called `{name}`"))?, number),
    };
    let mut out = vec![0; IMAGE_MAX];
    for _ in 0..repeats {
        let answer = (implementation.call)(call, black_box(input), black_box(&mut out));
        if answer.number != 0 {
            return Err(format!("{call:?}: refused {}", answer.number));
        }
    }
    Ok(())
}

#[cfg(test)]
mod tests {
    use super::{named, work, Work, TURNS};
    use crate::single_calls::singles;

    fn does(implementation: &str, work_words: Work, input: &[u8]) -> bool {
        let [name, number] = work_words.words();
        work(implementation, &name, &number, input).is_ok()
    }

    #[test]
    fn every_call_is_found_by_its_name_and_done() {
        for single in singles() {
            let one = Work::Calls { name: single.call_name, number: 1 };
            for implementation in ["monitor", "reference"] {
                assert!(does(implementation, one, &single.input), "{}", single.call_name);
                assert!(!does(implementation, one, b"\0"), "{} is refused", single.call_name);
            }
        }
    }

    #[test]
    fn turns_are_done_in_one_call() {
        let image = &singles()[0].input;
        assert!(does("monitor", Work::Turns(1_000_000), image));
        assert!(!does("monitor", Work::Turns(1_000_001), image), "more than a call may have");
    }

    #[test]
    fn words_that_name_nothing_are_a_fault() {
        let image = &singles()[0].input;
        assert!(work("monitor", "rewrite", "1", image).is_ok());
        assert!(work("another", "rewrite", "1", image).is_err());
        assert!(work("monitor", "another", "1", image).is_err());
        assert!(work("monitor", "rewrite", "x", image).is_err());
        assert_eq!(named(TURNS), None);
    }
}
