//! Wrong listers: they list what is no program, list a program as another text, or tell other numbers.

use super::found;
use crate::wrong::{right, wrong};
use differential::calls::{Answer, Call, Implementation};
use layout::instructions::TABLE;

/// What a lister answers that reads each program as another one.
fn reading(call: Call, input: &[u8], out: &mut [u8], other: impl Fn(&[u8]) -> Vec<u8>) -> Answer {
    match call {
        Call::Disassemble => right(call, &other(input), out),
        _ => right(call, input, out),
    }
}

#[test]
fn bytes_behind_the_last_instruction_left_out() {
    found(wrong(|call, input, out| reading(call, input, out, |program| program[..program.len() / 4 * 4].into())));
}

/// Lists the first bytes of programs that have too many, as many as are left once their number is cut to that.
fn length_below<const LIMIT: usize>() -> Implementation {
    wrong(|call, input, out| {
        reading(call, input, out, |program| match program.len() {
            length @ 1_025.. => program[..length % LIMIT].into(),
            _ => program.into(),
        })
    })
}

#[test]
fn too_many_bytes_of_which_some_are_listed() {
    found(length_below::<1_024>());
    found(length_below::<1_028>());
    found(length_below::<65_536>());
    found(wrong(|call, input, out| reading(call, input, out, |program| program[..program.len().min(1_024)].into())));
}

#[test]
fn a_256th_instruction_that_is_refused() {
    found(wrong(|call, input, out| match call {
        Call::Disassemble if input.len() == 1_024 => Answer::refused(5),
        _ => right(call, input, out),
    }));
}

#[test]
fn a_program_of_no_instruction_that_is_listed() {
    found(wrong(|call, input, out| match call {
        Call::Disassemble if input.is_empty() => Answer::default(),
        _ => right(call, input, out),
    }));
}

#[test]
fn an_operand_outside_the_table_that_is_not_listed() {
    found(wrong(|call, input, out| {
        reading(call, input, out, |program| match program {
            [0, _, b, c, rest @ ..] => [&[0, 0, *b, *c], rest].concat(),
            _ => program.into(),
        })
    }));
}

#[test]
fn a_code_behind_the_table_that_is_listed() {
    found(wrong(|call, input, out| {
        reading(call, input, out, |program| match program {
            [code, rest @ ..] if usize::from(*code) == TABLE.len() => [&[code - 1], rest].concat(),
            _ => program.into(),
        })
    }));
}

/// Changes what an accepted call lists.
fn listing(call: Call, input: &[u8], out: &mut [u8], change: impl Fn(String) -> String) -> Answer {
    let mut whole = [0; rithennaw::LISTING_MAX];
    let answer = right(call, input, &mut whole);
    if call != Call::Disassemble || answer.number != 0 {
        return right(call, input, out);
    }
    let text = change(String::from_utf8_lossy(&whole[..answer.length]).into_owned());
    let Some(front) = out.get_mut(..text.len()) else { return Answer::refused(13) };
    front.copy_from_slice(text.as_bytes());
    Answer { length: text.len(), ..answer }
}

#[test]
fn another_text() {
    found(wrong(|call, input, out| listing(call, input, out, |text| text.replace('\n', "\r\n"))));
    found(wrong(|call, input, out| listing(call, input, out, |text| text.trim_end().into())));
    found(wrong(|call, input, out| listing(call, input, out, |text| text.replace(" 7 ", " 07 "))));
    found(wrong(|call, input, out| listing(call, input, out, |text| text.replace("sandbox", "sandBox"))));
    found(wrong(|call, input, out| listing(call, input, out, |text| text.replace(" 255\n", " 256\n"))));
}

/// Tells the second number in place of the first of programs of which both are true.
fn told_first<const SECOND: u8, const FIRST: u8>() -> Implementation {
    wrong(|call, input, out| {
        let answer = right(call, input, out);
        let is_second = match SECOND {
            6 => input.iter().step_by(4).any(|&code| code > 12),
            _ => out.len() < 10,
        };
        if call == Call::Disassemble && answer.number == FIRST && is_second {
            return Answer::refused(SECOND);
        }
        answer
    })
}

#[test]
fn numbers_in_another_order() {
    found(told_first::<6, 5>());
    found(told_first::<13, 5>());
    found(told_first::<13, 6>());
}
