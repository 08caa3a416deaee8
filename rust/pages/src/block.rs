//! The fenced blocks of a page.

use imagetext::Fault;

const FENCE: &str = "```";

pub struct Block<'a> {
    /// The line of the page, from 1, on which the block opens.
    pub line: usize,
    /// What stands behind the opening fence.
    pub word: &'a str,
    pub lines: Vec<&'a str>,
}

/// The blocks in order. One that is not closed is a fault: it would hide those behind it.
pub fn blocks(page: &str) -> Result<Vec<Block<'_>>, Fault> {
    let mut blocks = Vec::new();
    let mut open: Option<Block> = None;
    for (line, words) in (1..).zip(page.lines()) {
        match (&mut open, words.strip_prefix(FENCE)) {
            (None, None) => {}
            (None, Some(word)) => open = Some(Block { line, word, lines: Vec::new() }),
            (Some(block), None) => block.lines.push(words),
            (Some(_), Some("")) => blocks.extend(open.take()),
            (Some(block), Some(_)) => return Err(not_closed(block)),
        }
    }
    match open {
        None => Ok(blocks),
        Some(block) => Err(not_closed(&block)),
    }
}

fn not_closed(block: &Block) -> Fault {
    Fault { line: block.line, message: "this block is not closed".into() }
}
