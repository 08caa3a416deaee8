//! The calls that are measured by themselves, with the inputs that they read.

use crate::images::{four_of_each, image, sends_to, LABELS, SLOTS};
use crate::{registers, texts};
use differential::calls::{Call, Post};

/// A call, and what it reads.
pub struct Single {
    pub input_name: &'static str,
    pub input: Vec<u8>,
    pub call_name: &'static str,
    pub call: Call,
}

/// The most that the monitor's time of a call may be as a multiple of the reference's.
pub const AIM: f64 = 1.1;

/// The calls whose time is that of reading and writing an image.
const IMAGE_CALLS: [(&str, Call); 5] = [
    ("turns, 0", Call::Turns(0)),
    ("post to slot 0", Call::Post(Post { slot: 0, label: 0, value: 1 })),
    ("rewrite", Call::Rewrite),
    ("view for label 0", Call::View(0)),
    ("sheet for label 0", Call::Sheet(0)),
];

/// The calls that read a text and a program.
const ASSEMBLE: (&str, Call) = ("assemble", Call::Assemble);
const DISASSEMBLE: (&str, Call) = ("disassemble", Call::Disassemble);

/// All of them, in the order in which they are printed.
pub fn singles() -> Vec<Single> {
    let mut singles = Vec::new();
    for (input_name, input) in extremes() {
        singles.extend(IMAGE_CALLS.map(|call| single(input_name, input.clone(), call)));
    }
    let text = texts::full_list();
    let program = rithennaw::assemble(&text).expect("every line is legal where there are 256");
    singles.push(single("text of 256 lines, every word in its turn", text, ASSEMBLE));
    singles.push(single("program of the same 256 instructions", program, DISASSEMBLE));
    singles
}

/// The call that is printed by this name.
pub fn named(name: &str) -> Option<Call> {
    let calls = IMAGE_CALLS.into_iter().chain([ASSEMBLE, DISASSEMBLE]);
    calls.into_iter().find_map(|(call_name, call)| (call_name == name).then_some(call))
}

fn single(input_name: &'static str, input: Vec<u8>, (call_name, call): (&'static str, Call)) -> Single {
    Single { input_name, input, call_name, call }
}

/// The longest image there is, and one with a single task.
fn extremes() -> [(&'static str, Vec<u8>); 2] {
    let program = format!("program\n{}", "end 0 0 0\n".repeat(256));
    let mail = four_of_each(0..LABELS);
    let longest = image(&program, 0..SLOTS, |slot| sends_to((slot + 1) % SLOTS, slot) + &mail);
    [
        ("16 tasks, 1,024 messages, 256 instructions", longest),
        ("1 task, no messages, 6 instructions", registers::in_step(1)),
    ]
}
