//! Each example run through the monitor, and what the page says compared with what the monitor gives.

use imagetext::Fault;
use layout::{registers_at, task_length};
use rithennaw::{disassemble, post, record, sheet, turns, view, Refusal};

use crate::example::{examples, Desk, Example, Instruction, Listing, Post, Register, Sheet, Step, What};

/// How much of a page was compared.
#[derive(Debug, Default, PartialEq, Eq)]
pub struct Compared {
    pub images: usize,
    pub listings: usize,
    pub posts: usize,
    pub sheets: usize,
    pub desks: usize,
    pub registers: usize,
    pub instructions: usize,
}

/// Compares a whole page, or tells the first line that has not its form or says something else than the monitor.
pub fn compare(page: &str) -> Result<Compared, Fault> {
    let mut compared = Compared::default();
    for Example { image, listing, steps, desks } in examples(page)? {
        compared.images += 1;
        if let Some(listing) = listing {
            compare_listing(&image, &listing)?;
            compared.listings += 1;
        }
        compared.run(image.clone(), &steps)?;
        for desk in &desks {
            compared.run(received(&image, desk)?, &desk.steps)?;
            compared.desks += 1;
        }
    }
    Ok(compared)
}

impl Compared {
    /// Compares the steps of an image.
    fn run(&mut self, image: Vec<u8>, steps: &[Step]) -> Result<(), Fault> {
        let mut run = Run { image, turns: 0 };
        for step in steps {
            run.compare(step)?;
            self.count(&step.what);
        }
        Ok(())
    }

    fn count(&mut self, what: &What) {
        match what {
            What::Post(_) => self.posts += 1,
            What::Sheet(sheet) => {
                self.sheets += 1;
                self.registers += sheet.registers.len();
                self.instructions += sheet.instructions.len();
            }
        }
    }
}

/// An example or a desk under way: its image after so many turns, with the posts that were made.
struct Run {
    image: Vec<u8>,
    turns: u64,
}

impl Run {
    fn compare(&mut self, step: &Step) -> Result<(), Fault> {
        let more = step.turns.checked_sub(self.turns).ok_or_else(|| Fault {
            line: step.line,
            message: format!("{} turns were run before this line", self.turns),
        })?;
        match &step.what {
            What::Post(should) => compare_post(self.post(more, should), should, step.line),
            What::Sheet(should) => compare_sheet(self.show(more, should.observer), should, step.line),
        }
    }

    fn go_on(&mut self, more: u64) -> Result<(), Refusal> {
        self.image = turns(&self.image, more)?.image;
        self.turns += more;
        Ok(())
    }

    /// Whether the post was delivered.
    fn post(&mut self, more: u64, of: &Post) -> Result<bool, Refusal> {
        self.go_on(more)?;
        let posted = post(&self.image, of.slot, of.label, of.value)?;
        self.image = posted.image;
        Ok(posted.delivered)
    }

    /// The observer's sheet and its view.
    fn show(&mut self, more: u64, observer: u32) -> Result<(String, Vec<u8>), Refusal> {
        self.go_on(more)?;
        let text = String::from_utf8_lossy(&sheet(&self.image, observer)?).into_owned();
        Ok((text, view(&self.image, observer)?))
    }
}

fn refused(refusal: Refusal) -> String {
    format!("refused {}", refusal.number())
}

/// The view that a desk begins with.
fn received(image: &[u8], desk: &Desk) -> Result<Vec<u8>, Fault> {
    let fault = |refusal| Fault { line: desk.line, message: format!("the view is {}", refused(refusal)) };
    view(image, desk.observer).map_err(fault)
}

fn compare_listing(image: &[u8], should: &Listing) -> Result<(), Fault> {
    let text = listing(image);
    if text != should.text {
        return Err(Fault { line: should.line, message: format!("the lister gives\n{text}") });
    }
    Ok(())
}

fn compare_post(delivered: Result<bool, Refusal>, should: &Post, line: usize) -> Result<(), Fault> {
    let told = delivered.map_or_else(refused, |delivered| if delivered { "delivered" } else { "dropped" }.into());
    if told != should.told {
        return Err(Fault { line, message: format!("the monitor tells `{told}`") });
    }
    Ok(())
}

fn compare_sheet(shown: Result<(String, Vec<u8>), Refusal>, should: &Sheet, line: usize) -> Result<(), Fault> {
    let (text, view) = shown.unwrap_or_else(|refusal| (refused(refusal) + "\n", Vec::new()));
    if text != should.text {
        return Err(Fault { line, message: format!("the monitor gives\n{text}") });
    }
    should.registers.iter().try_for_each(|register| compare_register(&view, register))?;
    should.instructions.iter().try_for_each(|instruction| compare_instruction(&view, instruction))
}

fn compare_register(view: &[u8], should: &Register) -> Result<(), Fault> {
    let message = match registers(view, should.slot).nth(should.index) {
        Some(value) if value == should.value => return Ok(()),
        Some(value) => format!("the monitor gives {value}"),
        None => "the observer is shown no such register".into(),
    };
    Err(Fault { line: should.line, message })
}

fn compare_instruction(view: &[u8], should: &Instruction) -> Result<(), Fault> {
    let message = match listing(view).lines().nth(should.place) {
        Some(text) if text == should.text => return Ok(()),
        Some(text) => format!("the lister gives `{text}`"),
        None => "the observer is shown no such instruction".into(),
    };
    Err(Fault { line: should.line, message })
}

/// The listing of an image's program; empty where there is no image.
fn listing(image: &[u8]) -> String {
    let program = match image {
        [_, high, low, rest @ ..] => rest.get(..usize::from(u16::from_be_bytes([*high, *low]))),
        _ => None,
    };
    disassemble(program.unwrap_or_default()).unwrap_or_default()
}

/// The eight registers of a slot's task; none where the slot is unused or there is no image.
fn registers(image: &[u8], slot: u32) -> impl Iterator<Item = u32> + '_ {
    let in_record = |&version: &u8| record(image, slot).get(registers_at(version)..task_length(version));
    let bytes = image.first().and_then(in_record).unwrap_or_default();
    bytes.chunks(4).map(|register| register.iter().fold(0, |value, byte| value << 8 | u32::from(*byte)))
}
