//! Ways to damage a text that lists a program, and the number that each leads to.

use crate::damage::{fault, Fault};
use crate::instructions::illegal;
use crate::numbers;
use crate::programs::PROGRAM_MAX;
use crate::rng::Rng;
use crate::texts::{Line, Text};
use layout::instructions::TABLE;

/// Every fault of a text.
pub const TEXT_FAULTS: [Fault<Text>; 18] = [
    fault(16, "word", word),
    fault(16, "word in capitals", |rng, text| line(rng, text, |_, line| line.fields[0].make_ascii_uppercase())),
    fault(16, "leading zeros", leading_zeros),
    fault(16, "no number", |rng, text| number(rng, text, |rng, number| *number = no_number(rng))),
    fault(16, "byte that no text has", foreign_byte),
    fault(16, "field missing", |rng, text| line(rng, text, |rng, line| drop(line.fields.remove(rng.below(4))))),
    fault(16, "field too many", |rng, text| field_too_many(rng, text, &["0", "end", "00", "-"])),
    fault(16, "space too many", |rng, text| field_too_many(rng, text, &[""])),
    fault(16, "space missing", |rng, text| join_fields(rng, text, &[""])),
    fault(16, "other byte for a space", |rng, text| join_fields(rng, text, &["\t", ",", "\0", "\u{a0}", "\r", "  "])),
    fault(16, "other end of a line", other_end),
    fault(16, "no line feed at the end", |_, text| text.0.last_mut().map(|line| line.end.clear()).is_some()),
    fault(6, "operand", operand),
    fault(6, "number above 255", |rng, text| {
        number(rng, text, |rng, number| *number = numbers::above_255(rng).into_bytes())
    }),
    fault(5, "no line", |_, text| lines(text, 0)),
    fault(5, "257 lines", |_, text| lines(text, PROGRAM_MAX + 1)),
    fault(5, "258 to 300 lines", |rng, text| lines(text, rng.between(PROGRAM_MAX + 2, 300))),
    fault(5, "some lines more than 256 or 512", |rng, text| lines(text, rng.pick(&[1, 2]) * 256 + rng.between(1, 256))),
];

/// Words that an instruction might have had.
const OTHER_WORDS: [&str; 10] = ["", "0", "own", "sub", "jump", "move", "stop", "receive", "sends", "ends"];

/// Changes a line that has its four fields still.
fn line(rng: &mut Rng, text: &mut Text, change: impl Fn(&mut Rng, &mut Line)) -> bool {
    let at = rng.below(text.0.len());
    let line = text.0.get_mut(at).filter(|line| line.fields.len() == 4);
    line.map(|line| change(rng, line)).is_some()
}

/// Changes a number of such a line.
fn number(rng: &mut Rng, text: &mut Text, change: impl Fn(&mut Rng, &mut Vec<u8>)) -> bool {
    line(rng, text, |rng, line| {
        let which = rng.between(1, 3);
        change(rng, &mut line.fields[which]);
    })
}

/// Puts a word that is not in the table in the place of another, most often one that is nearly it.
fn word(rng: &mut Rng, text: &mut Text) -> bool {
    line(rng, text, |rng, line| {
        let word = &line.fields[0];
        let near = nearly(rng, word);
        let known = TABLE.iter().any(|row| row.word.as_bytes() == near);
        line.fields[0] = if known || near == *word { rng.pick(&OTHER_WORDS).into() } else { near };
    })
}

/// The word with a letter changed, doubled, left out or in another place, or cut there.
fn nearly(rng: &mut Rng, word: &[u8]) -> Vec<u8> {
    let (front, back) = word.split_at(rng.below(word.len()));
    let Some((&letter, rest)) = back.split_first() else { return Vec::new() };
    match rng.below(5) {
        0 => [front, &[rng.between(97, 122) as u8], rest].concat(),
        1 => [front, &[letter, letter], rest].concat(),
        2 => [front, rest].concat(),
        3 => [front, rest, &[letter]].concat(),
        _ => front.to_vec(),
    }
}

fn leading_zeros(rng: &mut Rng, text: &mut Text) -> bool {
    number(rng, text, |rng, number| {
        let digits = String::from_utf8_lossy(number).into_owned();
        *number = numbers::behind_zeros(rng, &digits).into_bytes();
    })
}

/// What might pass for a number.
fn no_number(rng: &mut Rng) -> Vec<u8> {
    let numbers = ["", "-1", "+1", "-0", "1.0", "0x1", "1a", "a", "x", "1_0", "1,000", "1e2", "\u{663}", "\u{b2}"];
    rng.pick(&numbers).into()
}

/// Puts a byte that is in no such text anywhere into a line.
fn foreign_byte(rng: &mut Rng, text: &mut Text) -> bool {
    line(rng, text, |rng, line| {
        let byte = rng.pick(&[0, 1, 9, 11, 13, 31, 33, 44, 47, 58, 64, 91, 96, 123, 127, 128, 160, 176, 239, 255]);
        let which = rng.below(4);
        let field = &mut line.fields[which];
        field.insert(rng.below(field.len() + 1), byte);
    })
}

fn field_too_many(rng: &mut Rng, text: &mut Text, fields: &[&str]) -> bool {
    line(rng, text, |rng, line| line.fields.insert(rng.below(5), rng.pick(fields).into()))
}

/// Puts something else than a space between two fields of a line.
fn join_fields(rng: &mut Rng, text: &mut Text, between: &[&str]) -> bool {
    line(rng, text, |rng, line| {
        let which = rng.below(3);
        let behind = line.fields.remove(which + 1);
        let field = &mut line.fields[which];
        field.extend(rng.pick(between).bytes());
        field.extend(behind);
    })
}

fn other_end(rng: &mut Rng, text: &mut Text) -> bool {
    let ends = ["", "\r\n", "\r", "\n\n", "\n\r\n", " \n", "\n ", "\0\n", "\n\0", "\u{85}", ";"];
    line(rng, text, |rng, line| line.end = rng.pick(&ends).into())
}

/// Puts an operand outside its range, but not above 255.
fn operand(rng: &mut Rng, text: &mut Text) -> bool {
    let (n, at, which) = (text.0.len(), rng.below(text.0.len()), rng.below(3));
    let Some(line) = text.0.get_mut(at).filter(|line| line.fields.len() == 4) else { return false };
    let Some(row) = TABLE.iter().find(|row| row.word.as_bytes() == line.fields[0]) else { return false };
    let Some(byte) = illegal(rng, row.operands[which], n) else { return false };
    line.fields[1 + which] = byte.to_string().into_bytes();
    true
}

/// Gives the text that many lines, all of which it has already.
fn lines(text: &mut Text, count: usize) -> bool {
    text.0 = text.0.iter().cycle().take(count).cloned().collect();
    !text.0.is_empty() || count == 0
}
