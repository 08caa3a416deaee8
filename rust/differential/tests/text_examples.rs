//! Lists of instructions by the words of U2, with both implementations and the values that it gives.

use differential::calls::{Call, BOTH};
use layout::instructions::TABLE;
use layout::Instruction;
use rithennaw::{LISTING_MAX, PROGRAM_MAX};

/// Both implementations give these bytes with an output that has their length, or that number with any output.
fn both_give(call: Call, input: &[u8], expected: Result<&[u8], u8>) {
    let rooms = expected.map_or_else(|_| vec![0, LISTING_MAX], |bytes| vec![bytes.len()]);
    for (implementation, room) in BOTH.into_iter().flat_map(|one| rooms.iter().map(move |&room| (one, room))) {
        let mut out = vec![0; room];
        let answer = (implementation.call)(call, input, &mut out);
        let given = if answer.number == 0 { Ok(&out[..answer.length]) } else { Err(answer.number) };
        assert_eq!(given, expected, "{call:?} of {} by the {}", input.escape_ascii(), implementation.name);
    }
}

/// The text is turned into the program, and back.
fn turned(text: &str, program: &[Instruction]) {
    both_give(Call::Assemble, text.as_bytes(), Ok(&program.concat()));
    both_give(Call::Disassemble, &program.concat(), Ok(text.as_bytes()));
}

fn refused(text: &str, number: u8) {
    both_give(Call::Assemble, text.as_bytes(), Err(number));
}

fn program_refused(program: &[u8], number: u8) {
    both_give(Call::Disassemble, program, Err(number));
}

const LINE: &str = "end 0 0 0\n";

#[test]
fn the_words_are_those_of_01s_table() {
    let words = "end 0 0 0\nset 7 255 0\ncopy 1 2 0\nadd 3 4 5\nsubtract 6 7 0\ngo 12 0 0\nzero 1 0 0\nraise 15 0 0\n";
    let more = "send 1 15 2\ntake 3 4 0\npoll 5 6 11\nsandbox 7 10 15\nself 0 1 0\n";
    let program = [[0x00, 0, 0, 0], [0x01, 7, 255, 0], [0x02, 1, 2, 0], [0x03, 3, 4, 5], [0x04, 6, 7, 0]];
    let jumps = [[0x05, 12, 0, 0], [0x06, 1, 0, 0], [0x07, 15, 0, 0], [0x08, 1, 15, 2]];
    let others = [[0x09, 3, 4, 0], [0x0a, 5, 6, 11], [0x0b, 7, 10, 15], [0x0c, 0, 1, 0]];
    turned(&[words, more].concat(), &[&program[..], &jumps, &others].concat());
}

#[test]
fn text_that_is_no_such_list_is_16() {
    for text in ["end 0 0 0", "end 0 0\n", "end  0 0 0\n", "end 0 0 0 \n", "end 0 0 0\r\n", "\n", "End 0 0 0\n"] {
        refused(text, 16);
        refused(&[LINE, text].concat(), 16);
    }
    for text in ["set 1 02 3\n", "end 0 0 00\n", "move 0 0 0\n", "set -1 2 3\n", "set 0 0 0256\n"] {
        refused(text, 16);
        refused(&[text, LINE].concat(), 16);
    }
}

#[test]
fn zero_lines_and_more_than_256_are_5() {
    refused("", 5);
    turned(&LINE.repeat(256), &[[0; 4]; 256]);
    assert_eq!(4 * 256, PROGRAM_MAX);
    refused(&LINE.repeat(257), 5);
}

#[test]
fn operands_outside_the_table_are_6_however_long_the_number() {
    turned("set 7 255 255\n", &[[1, 7, 255, 255]]);
    for line in ["end 1 0 0\n", "set 8 0 0\n", "go 1 0 0\n", "raise 16 0 0\n", "sandbox 0 0 0\n"] {
        refused(line, 6);
    }
    for number in ["256", "65536", "4294967296", "18446744073709551616", &"9".repeat(1_000)] {
        refused(&format!("set 0 0 {number}\n"), 6);
    }
}

#[test]
fn the_writer_tests_16_before_5_before_6_before_13() {
    let outside = "set 256 0 0\n";
    let many = LINE.repeat(257);
    refused(&format!("{outside}{many}end"), 16);
    refused(&format!("{outside}{many}"), 5);
    refused(&format!("{outside}{LINE}"), 6);
    for implementation in BOTH {
        assert_eq!((implementation.call)(Call::Assemble, LINE.as_bytes(), &mut [0; 3]).number, 13);
    }
}

#[test]
fn the_lister_gives_5_before_6_before_13() {
    for length in [0, 1, 3, 5, 1_023, 1_025, 1_028] {
        program_refused(&vec![255; length], 5);
    }
    program_refused(&[TABLE.len() as u8, 0, 0, 0], 6);
    program_refused(&[0, 0, 0, 1], 6);
    for implementation in BOTH {
        assert_eq!((implementation.call)(Call::Disassemble, &[0; 4], &mut [0; 9]).number, 13);
    }
}

#[test]
fn the_longest_list_has_4352_bytes() {
    let text = "sandbox 7 255 15\n".repeat(256);
    assert_eq!(text.len(), LISTING_MAX);
    turned(&text, &[[0x0b, 7, 255, 15]; 256]);
}
