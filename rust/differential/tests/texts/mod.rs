//! Wrong writers and listers of programs, each wrong in one thing, are found too.

mod lister;
mod writer;

use crate::wrong::{right, wrong};
use crate::{difference_in, found_in};
use differential::calls::{Answer, Call, Implementation, MONITOR, REFERENCE};
use differential::text_cases;

fn found(wrong: Implementation) {
    found_in(text_cases::run, wrong);
}

fn difference(implementations: [Implementation; 2]) -> Option<String> {
    difference_in(text_cases::run, implementations)
}

/// The number of lines that have their line feed.
fn lines(text: &[u8]) -> usize {
    text.iter().filter(|&&byte| byte == b'\n').count()
}

/// The first lines of a text.
fn first_lines(text: &[u8], count: usize) -> Vec<u8> {
    text.split_inclusive(|&byte| byte == b'\n').take(count).collect::<Vec<_>>().concat()
}

#[test]
fn right_ones_do_not_differ() {
    assert_eq!(difference([MONITOR, REFERENCE]), None);
}

#[test]
fn a_byte_behind_the_answer() {
    found(wrong(|call, input, out| {
        let answer = right(call, input, out);
        out.iter_mut().skip(answer.length.max(1)).take(1).for_each(|byte| *byte ^= 1);
        answer
    }));
}

#[test]
fn a_byte_that_a_refused_call_writes() {
    found(wrong(|call, input, out| {
        let answer = right(call, input, out);
        out.iter_mut().take(usize::from(answer.number != 0)).for_each(|byte| *byte ^= 1);
        answer
    }));
}

#[test]
fn an_output_of_just_the_length_that_is_refused() {
    found(wrong(|call, input, out| {
        let length = right(call, input, &mut out.to_vec()).length;
        if length == out.len() && length > 0 {
            return Answer::refused(13);
        }
        right(call, input, out)
    }));
}

/// What a call answers that takes every program for one of 256 instructions, so that targets may lie behind its end.
fn padded(call: Call, input: &[u8], out: &mut [u8]) -> Answer {
    let (one_more, count): (&[u8], _) = match call {
        Call::Assemble => (b"end 0 0 0\n", lines(input)),
        _ => (&[0; 4], input.len().div_ceil(4)),
    };
    let mut whole = [0; rithennaw::LISTING_MAX];
    let more = one_more.repeat(256usize.saturating_sub(count));
    let told = right(call, &[input, &more].concat(), &mut whole);
    let length = match call {
        Call::Assemble => 4 * count,
        _ => first_lines(&whole, count).len(),
    };
    // A text that is cut within a line would go on in the lines behind it.
    let is_cut = call == Call::Assemble && !input.ends_with(b"\n");
    if told.number != 0 || input.is_empty() || is_cut || length > out.len() {
        return right(call, input, out);
    }
    out[..length].copy_from_slice(&whole[..length]);
    Answer { length, ..told }
}

#[test]
fn targets_behind_the_end_of_the_program() {
    found(wrong(|call, input, out| match call {
        Call::Assemble => padded(call, input, out),
        _ => right(call, input, out),
    }));
    found(wrong(|call, input, out| match call {
        Call::Disassemble => padded(call, input, out),
        _ => right(call, input, out),
    }));
}

/// Two that are wrong alike are found, since what they give is not turned back.
fn not_turned(both: Implementation) {
    let report = difference([both, both]).expect("a difference");
    assert!(report.starts_with("a text and its program are not turned into each other"), "{report}");
}

#[test]
fn capitals_that_both_read() {
    not_turned(wrong(|call, input, out| right(call, &lowered(call, input), out)));
}

/// A text in small letters; a program as it is.
fn lowered(call: Call, input: &[u8]) -> Vec<u8> {
    match call {
        Call::Assemble => input.to_ascii_lowercase(),
        _ => input.to_vec(),
    }
}

#[test]
fn capitals_that_both_write() {
    not_turned(wrong(|call, input, out| {
        let answer = right(call, input, out);
        if call == Call::Disassemble {
            out[..answer.length].make_ascii_uppercase();
        }
        answer
    }));
}

#[test]
fn an_accepted_text_that_both_refuse() {
    not_turned(wrong(|_, _, _| Answer::refused(5)));
}
