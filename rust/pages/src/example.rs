//! The examples of a page: images, and what the page says of them.

use imagetext::Fault;

use crate::block::{blocks, Block};

const LISTING: &str = "listing";
const SHEET: &str = "after N turns, observer V";
const POST: &str = "after N turns, post VALUE with label L to slot S: TOLD";
const DESK: &str = "on the desk of observer V";

pub struct Example {
    pub image: Vec<u8>,
    pub listing: Option<Listing>,
    pub steps: Vec<Step>,
    pub desks: Vec<Desk>,
}

/// The observer's view of the example's image, taken at the start, and what the page says of it.
pub struct Desk {
    /// The line of the page, from 1, on which it begins.
    pub line: usize,
    pub observer: u32,
    pub steps: Vec<Step>,
}

/// The program as the lister gives it.
pub struct Listing {
    /// The line of the page, from 1, on which it begins.
    pub line: usize,
    /// Its lines, each with its line feed.
    pub text: String,
}

/// What the page says of an image after some turns in all.
pub struct Step {
    /// The line of the page, from 1, on which it begins.
    pub line: usize,
    pub turns: u64,
    pub what: What,
}

pub enum What {
    Post(Post),
    Sheet(Sheet),
}

/// A post, and what the host is told of it.
pub struct Post {
    pub slot: u32,
    pub label: u32,
    pub value: u32,
    pub told: String,
}

/// What an observer is shown.
pub struct Sheet {
    pub observer: u32,
    /// The lines that the monitor gives, each with its line feed.
    pub text: String,
    pub registers: Vec<Register>,
    pub instructions: Vec<Instruction>,
}

pub struct Register {
    pub line: usize,
    pub slot: u32,
    pub index: usize,
    pub value: u32,
}

pub struct Instruction {
    pub line: usize,
    pub place: usize,
    pub text: String,
}

/// The examples in order. A block that is none is a fault, so that a mistake in its first line does not leave it out.
pub fn examples(page: &str) -> Result<Vec<Example>, Fault> {
    blocks(page)?.iter().map(example).collect()
}

fn example(block: &Block) -> Result<Example, Fault> {
    if block.word != "example" {
        return Err(Fault {
            line: block.line,
            message: format!("the block's word is `{}`, not `example`", block.word),
        });
    }
    let is_step = |line: &&str| line.starts_with("after ") || begins_desk(line);
    let first_step = block.lines.iter().position(is_step).unwrap_or(block.lines.len());
    let (ahead, behind) = block.lines.split_at(first_step);
    let (steps, desks) = behind.split_at(first_desk(behind));
    let image_lines = ahead.iter().position(|line| *line == LISTING).unwrap_or(first_step);
    let (image, listing) = ahead.split_at(image_lines);
    if behind.is_empty() && listing.is_empty() {
        return Err(Fault { line: block.line, message: format!("this example has no line `{LISTING}` or `{SHEET}`") });
    }
    if steps.is_empty() && !desks.is_empty() {
        let message = "this desk has no step of the whole image ahead of it".into();
        return Err(Fault { line: block.line + 1 + first_step, message });
    }
    Ok(Example {
        image: imagetext::image(&image.join("\n"))
            .map_err(|fault| Fault { line: block.line + fault.line, message: fault.message })?,
        listing: read_listing(listing, block.line + 1 + image_lines),
        steps: read_steps(steps, block.line + 1 + first_step)?,
        desks: read_desks(desks, block.line + 1 + first_step + steps.len())?,
    })
}

/// The listing on some lines of an example, the first of which has this number in the page; none where there is no line.
fn read_listing(lines: &[&str], line: usize) -> Option<Listing> {
    let (_, lines) = lines.split_first()?;
    Some(Listing { line, text: lines.iter().map(|line| format!("{line}\n")).collect() })
}

/// The steps on some lines of an example, the first of which has this number in the page.
fn read_steps(lines: &[&str], first: usize) -> Result<Vec<Step>, Fault> {
    let mut steps: Vec<Step> = Vec::new();
    for (line, words) in (first..).zip(lines) {
        let fault = |form: &str| Fault { line, message: format!("`{words}` is not `{form}`") };
        match (steps.last_mut().map(|step| &mut step.what), words.split(' ').next()) {
            (Some(What::Sheet(sheet)), Some("register")) => {
                let register = register(line, words).ok_or_else(|| fault("register R of slot S is VALUE"))?;
                sheet.registers.push(register);
            }
            (Some(What::Sheet(sheet)), Some("instruction")) => {
                let instruction = instruction(line, words).ok_or_else(|| fault("instruction P is WORD A B C"))?;
                sheet.instructions.push(instruction);
            }
            (Some(What::Sheet(sheet)), Some(word)) if word != "after" => sheet.text += &format!("{words}\n"),
            _ => {
                let form = if words.contains(", post ") { POST } else { SHEET };
                steps.push(step(line, words).ok_or_else(|| fault(form))?);
            }
        }
    }
    Ok(steps)
}

/// Whether the line begins a desk: no line that the monitor or the lister gives has this word.
fn begins_desk(line: &str) -> bool {
    line.split(' ').next() == Some("on")
}

/// How many of the lines stand ahead of the first desk.
fn first_desk(lines: &[&str]) -> usize {
    lines.iter().position(|line| begins_desk(line)).unwrap_or(lines.len())
}

/// The desks on some lines of an example, the first of which has this number in the page and begins a desk.
fn read_desks(mut lines: &[&str], mut line: usize) -> Result<Vec<Desk>, Fault> {
    let mut desks = Vec::new();
    while let Some((words, behind)) = lines.split_first() {
        let observer = words.strip_prefix("on the desk of observer ").and_then(|observer| observer.parse().ok());
        let observer = observer.ok_or_else(|| Fault { line, message: format!("`{words}` is not `{DESK}`") })?;
        let (steps, next) = behind.split_at(first_desk(behind));
        if steps.is_empty() {
            return Err(Fault { line, message: "this desk has no step".into() });
        }
        desks.push(Desk { line, observer, steps: read_steps(steps, line + 1)? });
        (lines, line) = (next, line + 1 + steps.len());
    }
    Ok(desks)
}

fn step(line: usize, words: &str) -> Option<Step> {
    let (turns, what) = words.strip_prefix("after ")?.split_once(", ")?;
    let turns = turns.strip_suffix(" turns").or_else(|| turns.strip_suffix(" turn"))?.parse().ok()?;
    let what = post(what).map(What::Post).or_else(|| sheet(what).map(What::Sheet))?;
    Some(Step { line, turns, what })
}

fn post(words: &str) -> Option<Post> {
    let (post, told) = words.split_once(": ")?;
    let words: Vec<&str> = post.split(' ').collect();
    let ["post", value, "with", "label", label, "to", "slot", slot] = words[..] else { return None };
    let (slot, label, value) = (slot.parse().ok()?, label.parse().ok()?, value.parse().ok()?);
    Some(Post { slot, label, value, told: told.into() })
}

fn sheet(words: &str) -> Option<Sheet> {
    let observer = words.strip_prefix("observer ")?.parse().ok()?;
    Some(Sheet { observer, text: String::new(), registers: Vec::new(), instructions: Vec::new() })
}

fn register(line: usize, words: &str) -> Option<Register> {
    let words: Vec<&str> = words.split(' ').collect();
    let ["register", index, "of", "slot", slot, "is", value] = words[..] else { return None };
    Some(Register { line, slot: slot.parse().ok()?, index: index.parse().ok()?, value: value.parse().ok()? })
}

fn instruction(line: usize, words: &str) -> Option<Instruction> {
    let (place, text) = words.strip_prefix("instruction ")?.split_once(" is ")?;
    Some(Instruction { line, place: place.parse().ok()?, text: text.into() })
}
