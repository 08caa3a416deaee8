//! The sections of the text: each begins with a line `version V`, `program`, `turn SLOT` or `slot SLOT`.

use crate::line::{lines, Fault, Line};

/// The fault of a line where a section should begin.
pub const EXPECTED: &str = "expected `version V`, `program`, `turn SLOT` or `slot SLOT`";

pub struct Section<'a> {
    pub head: Line<'a>,
    pub body: Vec<Line<'a>>,
}

impl Section<'_> {
    /// A fault with this message where lines belong to the section.
    pub fn expect_no_body(&self, message: &str) -> Result<(), Fault> {
        self.body.first().map_or(Ok(()), |line| Err(line.fault(message)))
    }
}

pub fn sections(text: &str) -> Result<Vec<Section<'_>>, Fault> {
    let mut sections: Vec<Section> = Vec::new();
    for line in lines(text) {
        if matches!(line.words[0], "version" | "program" | "turn" | "slot") {
            sections.push(Section { head: line, body: Vec::new() });
        } else if let Some(section) = sections.last_mut() {
            section.body.push(line);
        } else {
            return Err(line.fault(EXPECTED));
        }
    }
    Ok(sections)
}
