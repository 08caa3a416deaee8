//! A task and its fields.

use crate::line::{is_decimal, Fault, Line};
use crate::program::Names;
use layout::{clearance_length, Message, Task, HOST};
use std::collections::HashSet;

/// The task whose fields stand behind `slot SLOT` and on the lines below it, in an image of this version.
pub fn task(head: &Line, body: &[Line], names: &Names, version: u8) -> Result<Task, Fault> {
    let mut task = Task::default();
    let mut given = HashSet::new();
    let lines = std::iter::once((head, &head.words[2..])).chain(body.iter().map(|line| (line, &line.words[..])));
    for (line, mut words) in lines {
        while !words.is_empty() {
            let (field, behind) = words.split_at(read_field(&mut task, line, words, names)?);
            let name = &field[..field.len() - 1];
            if field[0] == "clearance" && clearance_length(version) == 0 {
                return Err(line.fault("an image of version 1 has no clearances: one of `version 2` has"));
            }
            if field[0] != "message" && !given.insert(name) {
                return Err(line.fault(format!("`{}` is given twice", name.join(" "))));
            }
            words = behind;
        }
    }
    Ok(task)
}

/// Reads the field at the front of the words, and tells how many words it has.
fn read_field(task: &mut Task, line: &Line, words: &[&str], names: &Names) -> Result<usize, Fault> {
    match words {
        ["kind", kind, ..] => task.kind = line.number(kind)?,
        ["label", label, ..] => task.label = line.number(label)?,
        ["clearance", clearance, ..] => task.clearance = line.number(clearance)?,
        ["spare", spare, ..] => task.spare = line.number(spare)?,
        ["place", place, ..] => task.place = line.number(&names.decimal(line, place)?)?,
        ["register", register, value, ..] => {
            let index = line.one_of("register", register, 0..=task.registers.len() - 1)?;
            task.registers[index] = line.number(value)?;
            return Ok(3);
        }
        ["message", label, sender, value, ..] => {
            let (label, sender, value) = (line.number(label)?, read_sender(line, sender)?, line.number(value)?);
            task.mail.push(Message { label, sender, value });
            return Ok(4);
        }
        _ => {
            return Err(line.fault(format!(
                "expected `kind K`, `label L`, `clearance C`, `spare K`, `place P`, `register R VALUE` or \
                 `message LABEL SENDER VALUE` at `{}`",
                words.join(" ")
            )));
        }
    }
    Ok(2)
}

/// A sender by its number, or the host by its word.
fn read_sender(line: &Line, word: &str) -> Result<u8, Fault> {
    match word {
        "host" => Ok(HOST),
        _ if is_decimal(word) => line.number(word),
        _ => Err(line.fault(format!("`{word}` is neither `host` nor a decimal number without leading zeros"))),
    }
}
