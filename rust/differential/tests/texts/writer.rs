//! Wrong writers: they take other texts for lists of instructions, or tell other numbers of those that are none.

use super::{first_lines, found, lines};
use crate::wrong::{right, wrong};
use differential::calls::{Answer, Call, Implementation};

/// What a writer answers that reads each text as another one.
fn reading(call: Call, input: &[u8], out: &mut [u8], other: impl Fn(&[u8]) -> Vec<u8>) -> Answer {
    match call {
        Call::Assemble => right(call, &other(input), out),
        _ => right(call, input, out),
    }
}

/// The text with some of its fields changed; a field is what stands between spaces and line feeds.
fn with_fields(text: &[u8], change: impl Fn(&[u8]) -> Option<Vec<u8>>) -> Vec<u8> {
    let changed = text.split_inclusive(|byte| b" \n".contains(byte)).map(|field| {
        let end = field.iter().position(|byte| b" \n".contains(byte)).unwrap_or(field.len());
        let (field, behind) = field.split_at(end);
        [&change(field).unwrap_or(field.to_vec()), behind].concat()
    });
    changed.collect::<Vec<_>>().concat()
}

/// The digits of a field that is a number in decimal without leading zeros.
fn number(field: &[u8]) -> Option<&str> {
    let digits = std::str::from_utf8(field).ok()?;
    let is_number = !digits.is_empty() && digits.bytes().all(|byte| byte.is_ascii_digit());
    (is_number && (digits == "0" || !digits.starts_with('0'))).then_some(digits)
}

/// Whether a field is a number above 255.
fn is_above_255(field: &[u8]) -> bool {
    number(field).is_some_and(|digits| digits.parse::<u8>().is_err())
}

/// Whether a text has a number above 255.
fn has_above_255(text: &[u8]) -> bool {
    text.split(|byte| b" \n".contains(byte)).any(is_above_255)
}

#[test]
fn leading_zeros_that_are_read() {
    found(wrong(|call, input, out| {
        reading(call, input, out, |text| {
            with_fields(text, |field| {
                let zeros = field.iter().take_while(|&&byte| byte == b'0').count();
                number(&field[zeros..]).map(|digits| digits.into())
            })
        })
    }));
}

#[test]
fn a_0_that_is_taken_for_a_leading_zero() {
    found(wrong(|call, input, out| match call {
        Call::Assemble if input.ends_with(b" 0\n") => Answer::refused(16),
        _ => right(call, input, out),
    }));
}

#[test]
fn numbers_above_255_that_are_read_as_255() {
    found(wrong(|call, input, out| {
        reading(call, input, out, |text| with_fields(text, |field| is_above_255(field).then(|| b"255".into())))
    }));
}

/// Reads numbers as they are once cut to that many bits.
fn cut<const BITS: u32>() -> Implementation {
    wrong(|call, input, out| {
        reading(call, input, out, |text| {
            with_fields(text, |field| {
                let digits = number(field)?.bytes().map(|byte| u128::from(byte - b'0'));
                let cut_to_128 = digits.fold(0u128, |sum, digit| sum.wrapping_mul(10).wrapping_add(digit));
                let cut = cut_to_128 << (128 - BITS) >> (128 - BITS);
                Some(cut.to_string().into())
            })
        })
    })
}

#[test]
fn numbers_that_wrap() {
    found(cut::<8>());
    found(cut::<16>());
    found(cut::<32>());
    found(cut::<64>());
    found(cut::<128>());
}

/// Reads the first digits of long numbers only, as many as are left once their number is cut to that.
fn digit_count_below<const LIMIT: usize>() -> Implementation {
    wrong(|call, input, out| {
        reading(call, input, out, |text| {
            with_fields(text, |field| {
                let digits = number(field).filter(|digits| digits.len() % LIMIT > 0)?;
                Some(digits[..digits.len() % LIMIT].into())
            })
        })
    })
}

#[test]
fn numbers_of_which_only_some_digits_are_read() {
    found(digit_count_below::<4>());
    found(digit_count_below::<16>());
    found(digit_count_below::<256>());
    found(wrong(|call, input, out| {
        reading(call, input, out, |text| {
            with_fields(text, |field| number(field).and_then(|digits| digits.get(..3)).map(|digits| digits.into()))
        })
    }));
}

#[test]
fn numbers_above_255_that_make_the_text_no_list() {
    found(wrong(|call, input, out| match right(call, input, out) {
        answer if call == Call::Assemble && answer.number == 6 && has_above_255(input) => Answer::refused(16),
        answer => answer,
    }));
}

#[test]
fn numbers_of_40_digits_that_make_the_text_no_list() {
    found(wrong(|call, input, out| {
        reading(call, input, out, |text| {
            with_fields(text, |field| number(field).filter(|digits| digits.len() > 39).map(|_| b"-".into()))
        })
    }));
}

/// Tells the second number in place of the first of texts of which both are true.
fn told_first<const SECOND: u8, const FIRST: u8>() -> Implementation {
    wrong(|call, input, out| {
        let answer = right(call, input, out);
        let is_second = match SECOND {
            5 => lines(input) > 256,
            6 => has_above_255(input),
            _ => out.len() < 4,
        };
        if call == Call::Assemble && answer.number == FIRST && is_second {
            return Answer::refused(SECOND);
        }
        answer
    })
}

#[test]
fn numbers_in_another_order() {
    found(told_first::<5, 16>());
    found(told_first::<6, 16>());
    found(told_first::<13, 16>());
    found(told_first::<6, 5>());
    found(told_first::<13, 5>());
    found(told_first::<13, 6>());
}

#[test]
fn the_number_of_the_first_line_that_has_a_fault() {
    found(wrong(|call, input, out| {
        let answer = right(call, input, out);
        let count = lines(input);
        if call != Call::Assemble || answer.number != 16 || count > 256 {
            return answer;
        }
        let mut numbers = (1..=count.min(20)).map(|some| {
            // As many lines as there are, for the targets.
            let rest = b"end 0 0 0\n".repeat(count - some);
            right(call, &[first_lines(input, some), rest].concat(), &mut [0; rithennaw::PROGRAM_MAX]).number
        });
        numbers.find(|&number| number != 0).map_or(answer, Answer::refused)
    }));
}

#[test]
fn a_last_line_that_needs_no_line_feed() {
    found(wrong(|call, input, out| {
        reading(call, input, out, |text| match text.last() {
            None | Some(b'\n') => text.into(),
            _ => [text, b"\n"].concat(),
        })
    }));
}

#[test]
fn what_stands_behind_the_last_line_feed_left_out() {
    found(wrong(|call, input, out| reading(call, input, out, |text| first_lines(text, lines(text)))));
}

#[test]
fn empty_lines_left_out() {
    found(wrong(|call, input, out| {
        reading(call, input, out, |text| {
            let lines = text.split_inclusive(|&byte| byte == b'\n').filter(|&line| line != b"\n");
            lines.collect::<Vec<_>>().concat()
        })
    }));
}

/// Reads one byte as if it were another.
fn alike<const BYTE: u8, const OTHER: u8>() -> Implementation {
    wrong(|call, input, out| {
        reading(call, input, out, |text| text.iter().map(|&byte| if byte == BYTE { OTHER } else { byte }).collect())
    })
}

#[test]
fn bytes_that_pass_for_others() {
    found(alike::<b'\t', b' '>());
    found(alike::<b'\r', b'\n'>());
    found(alike::<0, b'\n'>());
    found(alike::<b'/', b'0'>());
    found(alike::<b':', b'9'>());
    found(wrong(|call, input, out| reading(call, input, out, <[u8]>::to_ascii_lowercase)));
    found(wrong(|call, input, out| reading(call, input, out, |text| text.iter().map(|byte| byte & 127).collect())));
}

/// Leaves a byte out where it stands ahead of the other.
fn left_out<const BYTE: u8, const AHEAD_OF: u8>() -> Implementation {
    wrong(|call, input, out| {
        reading(call, input, out, |text| {
            let is_left_out = |at: usize| text[at] == BYTE && text.get(at + 1) == Some(&AHEAD_OF);
            (0..text.len()).filter(|&at| !is_left_out(at)).map(|at| text[at]).collect()
        })
    })
}

#[test]
fn bytes_that_are_left_out() {
    found(left_out::<b'\r', b'\n'>());
    found(left_out::<b' ', b' '>());
    found(left_out::<b' ', b'\n'>());
    found(left_out::<b'+', b'1'>());
}

#[test]
fn a_text_that_ends_at_a_byte_0() {
    found(wrong(|call, input, out| {
        reading(call, input, out, |text| text.split(|&byte| byte == 0).next().unwrap_or_default().into())
    }));
}

#[test]
fn words_of_which_only_the_first_letters_are_compared() {
    found(wrong(|call, input, out| {
        reading(call, input, out, |text| {
            with_fields(text, |field| field.starts_with(b"subtrac").then(|| b"subtract".into()))
        })
    }));
    found(wrong(|call, input, out| {
        reading(call, input, out, |text| with_fields(text, |field| field.starts_with(b"go").then(|| b"go".into())))
    }));
}

#[test]
fn two_words_in_each_others_place() {
    found(wrong(|call, input, out| {
        let answer = right(call, input, out);
        if call == Call::Assemble {
            // Copy and take have the same operands.
            let codes = out[..answer.length].iter_mut().step_by(4);
            codes.filter(|code| matches!(code, 2 | 9)).for_each(|code| *code = 11 - *code);
        }
        answer
    }));
}

/// Reads the first lines of texts that have too many, as many as are left once their number is cut to that.
fn line_count_below<const LIMIT: usize>() -> Implementation {
    wrong(|call, input, out| match right(call, input, out) {
        answer if call == Call::Assemble && answer.number == 5 && !input.is_empty() => {
            right(call, &first_lines(input, lines(input) % LIMIT), out)
        }
        answer => answer,
    })
}

#[test]
fn too_many_lines_of_which_some_are_read() {
    found(line_count_below::<256>());
    found(line_count_below::<512>());
    found(line_count_below::<65_536>());
    found(wrong(|call, input, out| reading(call, input, out, |text| first_lines(text, 256))));
}

#[test]
fn a_257th_line_that_is_read() {
    found(wrong(|call, input, out| {
        if call != Call::Assemble || lines(input) != 257 || out.len() < 1_028 {
            return right(call, input, out);
        }
        let (most, last) = input.split_at(first_lines(input, 256).len());
        let (front, back) = out.split_at_mut(1_024);
        match (right(call, most, front).number, right(call, last, back).number) {
            (0, 0) => Answer { length: 1_028, ..Answer::default() },
            _ => right(call, input, out),
        }
    }));
}

#[test]
fn a_256th_line_that_is_refused() {
    found(wrong(|call, input, out| match right(call, input, &mut out.to_vec()) {
        answer if call == Call::Assemble && answer.length == 1_024 => Answer::refused(5),
        _ => right(call, input, out),
    }));
}

/// Tells another number of a text of no line.
fn of_no_line<const NUMBER: u8>() -> Implementation {
    wrong(|call, input, out| match call {
        Call::Assemble if input.is_empty() => Answer::refused(NUMBER),
        _ => right(call, input, out),
    })
}

#[test]
fn another_number_of_a_text_of_no_line() {
    found(of_no_line::<0>());
    found(of_no_line::<6>());
    found(of_no_line::<16>());
}
