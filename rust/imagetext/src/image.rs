//! The image that the sections of a text describe.

use crate::line::{Fault, Line};
use crate::program::{program, Names};
use crate::section::{sections, Section, EXPECTED};
use crate::task::task;
use layout::{Image, Task, SLOTS, VERSIONS};

/// The parts that the text has given so far.
#[derive(Default)]
struct Parts<'a> {
    version: Option<u8>,
    names: Names<'a>,
    program: Option<Vec<u8>>,
    turn_slot: Option<u8>,
    slots: [Option<Task>; SLOTS],
}

/// The image that a text describes, or a fault in the text's form or in its program.
pub fn image(text: &str) -> Result<Vec<u8>, Fault> {
    let mut sections = sections(text)?;
    // The version says what a record has, so it is read first, wherever it stands.
    sections.sort_by_key(|section| section.head.words[0] != "version");
    let mut parts = Parts::default();
    for section in &sections {
        parts.read(section)?;
    }
    parts.bytes()
}

impl<'a> Parts<'a> {
    fn read(&mut self, section: &Section<'a>) -> Result<(), Fault> {
        let Section { head, body } = section;
        let given_before = match head.words[..] {
            ["version", version] => {
                section.expect_no_body("nothing belongs to `version` but its number")?;
                self.version.replace(read_version(head, version)?).is_some()
            }
            ["program"] => {
                self.names = Names::read(body)?;
                self.program.replace(program(head, body, &self.names)?).is_some()
            }
            ["turn", slot] => {
                section.expect_no_body("nothing belongs to `turn` but its slot")?;
                self.turn_slot.replace(head.number(slot)?).is_some()
            }
            ["slot", slot, ..] => {
                let slot = head.one_of("slot", slot, 0..=SLOTS - 1)?;
                let task = task(head, body, &self.names, self.version())?;
                check_length(head, task.record(self.version()).len())?;
                self.slots[slot].replace(task).is_some()
            }
            _ => return Err(head.fault(EXPECTED)),
        };
        if given_before {
            return Err(head.fault("this part of the image is given twice"));
        }
        Ok(())
    }

    /// A text that gives no version has the first, the only one when the earliest texts were written.
    fn version(&self) -> u8 {
        self.version.unwrap_or(VERSIONS[0])
    }

    fn bytes(self) -> Result<Vec<u8>, Fault> {
        let version = self.version();
        let program = self.program.ok_or_else(|| Fault { line: 1, message: "the text has no `program`".into() })?;
        let instructions = program.chunks_exact(4).map(|bytes| [bytes[0], bytes[1], bytes[2], bytes[3]]);
        let mut image = Image { version, ..Image::new(instructions.collect()) };
        image.turn_slot = self.turn_slot.unwrap_or(0);
        image.slots = self.slots;
        Ok(image.bytes())
    }
}

fn read_version(head: &Line, word: &str) -> Result<u8, Fault> {
    let [first, .., last] = VERSIONS.map(usize::from);
    head.one_of("version", word, first..=last).map(|version| version as u8)
}

/// A fault where a record is too long for the 2-byte length ahead of it.
fn check_length(head: &Line, length: usize) -> Result<(), Fault> {
    if length > usize::from(u16::MAX) {
        return Err(head.fault(format!("{length} bytes are too many for a 2-byte length")));
    }
    Ok(())
}
