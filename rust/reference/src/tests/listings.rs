//! The writer and the lister: both ways round, one text or program for each number, and the order of the numbers.

use super::{judged_instructions, written, END, ROOM, UNTOUCHED};
use crate::{assemble, disassemble, TextAnswer};
use layout::Instruction;

/// Each word of the table once, as it is typed.
const TYPED: &str = "\
end 0 0 0
set 1 200 99
copy 2 3 0
add 4 5 6
subtract 7 0 1
go 12 0 0
zero 3 11 0
raise 10 0 0
send 2 13 4
take 5 6 0
poll 7 1 9
sandbox 3 8 15
self 6 7 0
count 5 0 0
";

/// The program that `TYPED` lists.
const PROGRAM: [Instruction; 14] = [
    [0x00, 0, 0, 0],
    [0x01, 1, 200, 99],
    [0x02, 2, 3, 0],
    [0x03, 4, 5, 6],
    [0x04, 7, 0, 1],
    [0x05, 12, 0, 0],
    [0x06, 3, 11, 0],
    [0x07, 10, 0, 0],
    [0x08, 2, 13, 4],
    [0x09, 5, 6, 0],
    [0x0A, 7, 1, 9],
    [0x0B, 3, 8, 15],
    [0x0C, 6, 7, 0],
    [0x0D, 5, 0, 0],
];

const LINE: &str = "end 0 0 0\n";

/// What a refused call tells.
fn refused(number: u8) -> TextAnswer {
    TextAnswer { number, length: 0 }
}

/// The program that an accepted text lists.
fn assembled(text: &[u8]) -> Vec<u8> {
    let mut out = [UNTOUCHED; ROOM];
    let answer = assemble(text, &mut out);
    assert_eq!(answer.number, 0);
    written(answer.length, &out)
}

/// The text that lists an accepted program.
fn listed(program: &[u8]) -> Vec<u8> {
    let mut out = [UNTOUCHED; ROOM];
    let answer = disassemble(program, &mut out);
    assert_eq!(answer.number, 0);
    written(answer.length, &out)
}

/// This text and this program are accepted and each is turned into the other.
fn assert_pair(text: &str, program: &[Instruction]) {
    assert_eq!(assembled(text.as_bytes()), program.concat(), "{text}");
    assert_eq!(listed(&program.concat()), text.as_bytes(), "{text}");
}

/// The writer refuses this text with this number, whatever the output's length, and writes nothing.
fn assert_text_refused(text: impl AsRef<[u8]>, number: u8) {
    let mut out = [UNTOUCHED; ROOM];
    for room in [ROOM, 0] {
        let answer = assemble(text.as_ref(), &mut out[..room]);
        assert_eq!(answer, refused(number), "{}", text.as_ref().escape_ascii());
    }
    assert!(out.iter().all(|&byte| byte == UNTOUCHED));
}

/// The lister refuses these bytes with this number, whatever the output's length, and writes nothing.
fn assert_program_refused(program: &[u8], number: u8) {
    let mut out = [UNTOUCHED; ROOM];
    for room in [ROOM, 0] {
        assert_eq!(disassemble(program, &mut out[..room]), refused(number), "{program:?}");
    }
    assert!(out.iter().all(|&byte| byte == UNTOUCHED));
}

#[test]
fn each_word_stands_for_its_code() {
    assert_pair(TYPED, &PROGRAM);
    for (line, instruction) in TYPED.lines().zip(PROGRAM) {
        let text = format!("{}{line}\n", LINE.repeat(12));
        let mut program = [END; 13];
        program[12] = instruction;
        assert_pair(&text, &program);
    }
}

#[test]
fn operands_inside_the_table_are_turned_both_ways_and_others_are_6() {
    let words = TYPED.lines().map(|line| line.split(' ').next().expect("a word")).collect::<Vec<_>>();
    for (instruction, number) in judged_instructions() {
        let [code, a, b, c] = instruction;
        let text = format!("{LINE}{} {a} {b} {c}\n", words[usize::from(code)]);
        if number == 0 {
            assert_pair(&text, &[END, instruction]);
        } else {
            assert_text_refused(&text, number);
            assert_program_refused(&[END, instruction].concat(), number);
        }
    }
}

/// The powers of two would be 0 if they were wrapped to 1, 2, 4, 8 or 16 bytes.
#[test]
fn numbers_above_255_are_6_however_long() {
    assert_pair("set 7 255 255\n", &[[1, 7, 255, 255]]);
    let long = ["9".repeat(40), format!("1{}", "0".repeat(39)), "7".repeat(100_000)];
    let powers = ["256", "65536", "4294967296", "18446744073709551616", "340282366920938463463374607431768211456"];
    let others = ["257", "260", "300", "999", "1000", "65535", "4294967295"];
    for number in long.iter().map(String::as_str).chain(powers).chain(others) {
        assert_text_refused(format!("set {number} 0 0\n"), 6);
        assert_text_refused(format!("set 0 {number} 0\n"), 6);
        assert_text_refused(format!("set 0 0 {number}\n"), 6);
        assert_text_refused(format!("{TYPED}end 0 0 {number}\n{TYPED}"), 6);
    }
}

/// Each is one fault in a line, by itself and among lines that are right.
#[test]
fn lines_that_are_no_such_line_are_16() {
    let fields = ["", "end", "end 0", "end 0 0", "end 0 0 0 0", "0 0 0", "0 0 0 0", "end end 0 0", "set 1 2", "go 0"];
    let spaces = [" end 0 0 0", "end  0 0 0", "end 0  0 0", "end 0 0  0", "end 0 0 0 ", "end 0 0 ", "end  0 0", "   "];
    let others = ["end\t0 0 0", "end 0 0\t0", "end,0,0,0", "end 0 0 0\r", "\r", "end 0 0 0;", "# end", "end\x0b0 0 0"];
    let zeros = ["end 00 0 0", "end 0 00 0", "end 0 0 00", "set 01 2 3", "set 1 02 3", "set 1 2 03", "set 1 2 0300"];
    let numbers = ["set +1 2 3", "set 1 -2 3", "end -0 0 0", "set 1 2 0x3", "set 1 2 a", "set 1 2.0 3", "set 1 2 3_0"];
    let words = ["End 0 0 0", "END 0 0 0", "en 0 0 0", "ends 0 0 0", "move 0 0 0", "sub 0 0 0", "own 0 0 0"];
    let unseen = ["end\0 0 0 0", "end 0 0 0\0", "\u{feff}end 0 0 0", "end\u{a0}0 0 0", "set 1 2 \u{663}", "é 0 0 0"];
    for line in [&fields[..], &spaces, &others, &zeros, &numbers, &words, &unseen].concat() {
        assert_text_refused(format!("{line}\n"), 16);
        assert_text_refused(format!("{line}\n{TYPED}"), 16);
        assert_text_refused(format!("{TYPED}{line}\n"), 16);
        assert_text_refused(format!("{TYPED}{line}\n{TYPED}"), 16);
    }
    assert_text_refused(format!("set 0 0 0{}\n", "9".repeat(40)), 16);
    assert_text_refused(format!("end{}\n", " 0".repeat(100_000)), 16);
}

#[test]
fn a_text_cut_short_of_its_last_line_feed_is_16() {
    for length in 1..TYPED.len() {
        let text = &TYPED[..length];
        if !text.ends_with('\n') {
            assert_text_refused(text, 16);
        }
    }
    for text in ["\n", "\n\n", " ", " \n", "\r\n", &TYPED.replace('\n', "\r\n"), &TYPED.replace('\n', "\n\n")] {
        assert_text_refused(text, 16);
    }
}

#[test]
fn bytes_above_127_are_16_wherever_they_stand() {
    for byte in 128..=255 {
        for at in 0..=LINE.len() {
            let (front, back) = LINE.as_bytes().split_at(at);
            assert_text_refused([front, &[byte], back].concat(), 16);
        }
    }
}

/// Whatever byte is put in, taken out or replaced: an accepted text is the one that the lister writes.
#[test]
fn no_two_texts_list_the_same_program() {
    let text = b"set 7 20 105\ngo 1 0 0\n";
    let mut accepted = 0;
    for (at, byte) in (0..text.len()).flat_map(|at| (0..=255).map(move |byte| (at, byte))) {
        let (front, back) = text.split_at(at);
        let (inserted, removed) = ([front, &[byte], back].concat(), [front, &back[1..]].concat());
        let replaced = [front, &[byte], &back[1..]].concat();
        for changed in [inserted, removed, replaced] {
            let mut out = [UNTOUCHED; 8];
            let answer = assemble(&changed, &mut out);
            match answer.number {
                0 => assert_eq!(listed(&written(answer.length, &out)), changed),
                number => assert_text_refused(&changed, number),
            }
            accepted += u32::from(answer.number == 0);
        }
    }
    assert!(accepted > 50);
}

#[test]
fn no_line_or_more_than_256_is_5() {
    assert_text_refused("", 5);
    assert_pair(LINE, &[END]);
    assert_pair(&LINE.repeat(256), &[END; 256]);
    for count in [257, 258, 512, 65_536, 65_537] {
        assert_text_refused(LINE.repeat(count), 5);
    }
}

/// A line with T in place of its target, and the instruction that it stands for.
type Jump = (&'static str, fn(u8) -> Instruction);

const JUMPS: [Jump; 4] = [
    ("go T 0 0\n", |target| [5, target, 0, 0]),
    ("zero 1 T 0\n", |target| [6, 1, target, 0]),
    ("poll 1 2 T\n", |target| [10, 1, 2, target]),
    ("sandbox 1 T 3\n", |target| [11, 1, target, 3]),
];

#[test]
fn targets_are_below_the_number_of_lines() {
    for (line, instruction) in JUMPS {
        for last in [0, 1, 12, 127, 254, 255u8] {
            let ends = usize::from(last);
            let text = |target: u16| LINE.repeat(ends) + &line.replace('T', &target.to_string());
            let program = |target: u8| [vec![END; ends], vec![instruction(target)]].concat();
            assert_pair(&text(last.into()), &program(last));
            assert_text_refused(text(u16::from(last) + 1), 6);
            if let Some(behind) = last.checked_add(1) {
                assert_program_refused(&program(behind).concat(), 6);
            }
        }
    }
}

/// Each text has two or more faults; an output of length 0 is one more.
#[test]
fn the_writer_gives_16_then_5_then_6_then_13() {
    let many = LINE.repeat(257);
    for outside in ["end 1 0 0\n", "set 0 0 256\n", "raise 16 0 0\n", "sandbox 0 0 0\n"] {
        assert_text_refused(format!("{many}{outside}end 0 0 0"), 16);
        assert_text_refused(format!("{outside}{many}end 00 0 0\n"), 16);
        assert_text_refused(format!("{outside}end 0 0\n"), 16);
        assert_text_refused(format!("end 0 0\n{outside}"), 16);
        assert_text_refused(format!("{outside}{many}"), 5);
        assert_text_refused(format!("{many}{outside}"), 5);
        assert_text_refused(outside, 6);
        assert_text_refused(format!("{outside}{LINE}"), 6);
    }
    assert_text_refused(format!("{many}\n"), 16);
    assert_text_refused("end 256 0 00\n", 16);
    assert_text_refused("stop 256 0 0\n", 16);
    assert_eq!(assemble(LINE.as_bytes(), &mut []), refused(13));
}

#[test]
fn program_lengths_outside_the_rule_are_5_for_the_lister() {
    for length in [0, 1, 2, 3, 5, 6, 7, 1022, 1023, 1025, 1028, 65_536, 65_540] {
        assert_program_refused(&vec![0; length], 5);
    }
    assert_pair(&LINE.repeat(256), &[END; 256]);
}

#[test]
fn codes_behind_the_table_are_6_for_the_lister() {
    for code in 14..=255 {
        assert_program_refused(&[END, [code, 0, 0, 0]].concat(), 6);
        assert_program_refused(&[[code, 0, 0, 0], END].concat(), 6);
    }
}

#[test]
fn the_lister_gives_5_then_6_then_13() {
    for length in [1, 3, 5, 1028] {
        assert_program_refused(&vec![14; length], 5);
    }
    assert_program_refused(&[14; 4], 6);
    assert_program_refused(&[14; 1024], 6);
    assert_eq!(disassemble(&END, &mut []), refused(13));
}

#[test]
fn the_output_may_be_as_long_as_the_answer_but_no_shorter() {
    type Call = fn(&[u8], &mut [u8]) -> TextAnswer;
    let (text, program) = (TYPED.as_bytes(), &PROGRAM.concat()[..]);
    let ways: [(Call, &[u8], &[u8]); 2] = [(assemble, text, program), (disassemble, program, text)];
    for (call, input, expected) in ways {
        let mut out = vec![UNTOUCHED; expected.len()];
        for room in [0, 1, expected.len() - 1] {
            assert_eq!(call(input, &mut out[..room]), refused(13));
        }
        assert!(out.iter().all(|&byte| byte == UNTOUCHED));
        assert_eq!(call(input, &mut out), TextAnswer { number: 0, length: expected.len() });
        assert_eq!(out, expected);
    }
}

/// The longest line of all, as often as it may stand.
#[test]
fn the_longest_list_has_4352_bytes() {
    let text = "sandbox 0 255 15\n".repeat(256);
    assert_eq!(text.len(), 4352);
    assert_pair(&text, &[[11, 0, 255, 15]; 256]);
}
