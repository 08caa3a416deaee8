//! The calls, what they tell, and the two that answer them: the monitor through its Rust wrapper, and the reference
//! interpreter.

use rithennaw::Refusal;
use std::ops::Range;

/// A message of the host, and the slot that it is posted to.
#[derive(Debug, Clone, Copy, PartialEq, Eq)]
pub struct Post {
    pub slot: u32,
    pub label: u32,
    pub value: u32,
}

/// A call that writes, with its arguments. It reads an image; `Assemble` reads a text and `Disassemble` a program.
#[derive(Debug, Clone, Copy, PartialEq, Eq)]
pub enum Call {
    Rewrite,
    Turns(u64),
    Post(Post),
    View(u32),
    Sheet(u32),
    Assemble,
    Disassemble,
}

/// What a call that writes tells. Only turns have a busy count, and only a post is delivered.
#[derive(Debug, Clone, Copy, PartialEq, Eq, Default)]
pub struct Answer {
    /// 0 for an accepted call, else the number of its refusal.
    pub number: u8,
    /// How many bytes were written.
    pub length: usize,
    /// How many turns met a live task.
    pub busy: u64,
    /// Whether the message joined the mailbox; else it was dropped.
    pub delivered: bool,
}

impl Answer {
    /// What a refused call tells: its number, 0 and dropped.
    pub fn refused(number: u8) -> Answer {
        Answer { number, ..Answer::default() }
    }
}

impl From<reference::Answer> for Answer {
    fn from(told: reference::Answer) -> Answer {
        Answer { number: told.number, length: told.length, busy: told.busy, delivered: false }
    }
}

impl From<reference::PostAnswer> for Answer {
    fn from(told: reference::PostAnswer) -> Answer {
        Answer { number: told.number, length: told.length, busy: 0, delivered: told.delivered }
    }
}

impl From<reference::TextAnswer> for Answer {
    fn from(told: reference::TextAnswer) -> Answer {
        Answer { number: told.number, length: told.length, ..Answer::default() }
    }
}

/// One that answers calls.
#[derive(Debug, Clone, Copy)]
pub struct Implementation {
    pub name: &'static str,
    pub check: fn(&[u8]) -> u8,
    pub call: fn(Call, &[u8], &mut [u8]) -> Answer,
    pub record: fn(&[u8], u32) -> Range<usize>,
}

pub const MONITOR: Implementation = Implementation {
    name: "monitor",
    check: |image| rithennaw::check(image).map_or_else(Refusal::number, |()| 0),
    call: monitor_call,
    record: |image, slot| rithennaw::record_range(image, slot),
};

pub const REFERENCE: Implementation =
    Implementation { name: "reference", check: reference::check, call: reference_call, record: reference::record };

/// Both of them.
pub const BOTH: [Implementation; 2] = [MONITOR, REFERENCE];

fn monitor_call(call: Call, input: &[u8], out: &mut [u8]) -> Answer {
    let written = |length: usize| Answer { length, ..Answer::default() };
    let told = match call {
        Call::Rewrite => rithennaw::rewrite_into(input, out).map(written),
        Call::Turns(count) => {
            rithennaw::turns_into(input, count, out).map(|told| Answer { busy: told.busy, ..written(told.length) })
        }
        Call::Post(Post { slot, label, value }) => rithennaw::post_into(input, slot, label, value, out)
            .map(|told| Answer { delivered: told.delivered, ..written(told.length) }),
        Call::View(observer) => rithennaw::view_into(input, observer, out).map(written),
        Call::Sheet(observer) => rithennaw::sheet_into(input, observer, out).map(written),
        Call::Assemble => rithennaw::assemble_into(input, out).map(written),
        Call::Disassemble => rithennaw::disassemble_into(input, out).map(written),
    };
    // The wrapper tells only the number of a refused call; tests/link sees that the archive's other figures are 0.
    told.unwrap_or_else(|refusal| Answer::refused(refusal.number()))
}

fn reference_call(call: Call, input: &[u8], out: &mut [u8]) -> Answer {
    match call {
        Call::Rewrite => reference::rewrite(input, out).into(),
        Call::Turns(count) => reference::turns(input, count, out).into(),
        Call::Post(Post { slot, label, value }) => reference::post(input, slot, label, value, out).into(),
        Call::View(observer) => reference::view(input, observer, out).into(),
        Call::Sheet(observer) => reference::sheet(input, observer, out).into(),
        Call::Assemble => reference::assemble(input, out).into(),
        Call::Disassemble => reference::disassemble(input, out).into(),
    }
}
