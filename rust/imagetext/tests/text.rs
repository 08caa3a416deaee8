//! Texts and the bytes that they give; faults in a text's form and in its program, and the lines where they are met; the
//! program `imagetext`.

use std::process::{Command, Output};

use imagetext::image;
use layout::instructions::{Row, TABLE};

/// 01's image B.
const B: &str = "
    program             # a task that sends, and one that takes
        send 1 0 2
        end 0 0 0
    receiver:
        take 3 4 0
        end 0 0 0

    turn 0

    slot 0
        register 1 5
        register 2 700
    slot 5
        place receiver
";

/// B's bytes, as 01 gives them and tests/link/b.c writes them.
fn b() -> Vec<u8> {
    let program = [8, 1, 0, 2, 0, 0, 0, 0, 9, 3, 4, 0, 0, 0, 0, 0];
    let registers_0 = [[0, 0, 0, 0], [0, 0, 0, 5], [0, 0, 0x02, 0xbc]].concat();
    let mut bytes = [&[1, 0, 16], &program[..], &[0]].concat();
    bytes.extend([&[0, 37, 1, 0, 0, 0, 0], &registers_0[..], &[0; 5 * 4]].concat());
    bytes.extend([0; 4 * 2]);
    bytes.extend([&[0, 37, 1, 0, 0, 0, 2], &[0; 8 * 4][..]].concat());
    bytes.extend([0; 10 * 2]);
    bytes
}

#[test]
fn image_b() {
    assert_eq!(b().len(), 126);
    assert_eq!(image(B), Ok(b()));
}

/// A program of one instruction gives its code and the operands behind it.
fn expect_bytes(instruction: &str, should: [u8; 4]) {
    let bytes = image(&format!("program\n{instruction}\n")).unwrap();
    assert_eq!(bytes[..7], [&[1, 0, 4], &should[..]].concat(), "{instruction}");
}

#[test]
fn every_row_of_the_table_gives_its_code_and_operands() {
    for Row { word, code, operands } in TABLE {
        for [a, b, c] in [operands.map(|operand| operand.range(1).0), operands.map(|operand| operand.range(1).1)] {
            expect_bytes(&format!("{word} {a} {b} {c}"), [*code, a, b, c]);
        }
    }
}

/// A few of 01's rows, written out; layout compares its whole table with them.
#[test]
fn words_of_01_give_its_codes() {
    expect_bytes("end 0 0 0", [0x00, 0, 0, 0]);
    expect_bytes("set 1 20 255", [0x01, 1, 20, 255]);
    expect_bytes("subtract 1 2 3", [0x04, 1, 2, 3]);
    expect_bytes("sandbox 1 0 15", [0x0b, 1, 0, 15]);
    expect_bytes("self 1 2 0", [0x0c, 1, 2, 0]);
}

#[test]
fn the_longest_program_has_256_instructions() {
    let bytes = image(&format!("program\n{}last:\ngo last 0 0\n", "end 0 0 0\n".repeat(255))).unwrap();
    assert_eq!(bytes[..3], [1, 4, 0]);
    assert_eq!(bytes[3 + 4 * 255..3 + 4 * 256], [5, 255, 0, 0]);
}

/// With these lines for version and clearance a text gives that first byte and a record with that front: its length, and all
/// ahead of the spare.
fn expect_fields(version: &str, clearance: &str, first_byte: u8, front: &[u8]) {
    let text = format!(
        "{version}program\nend 0 0 0\nturn 7\nslot 15\nkind 4\nlabel 3\n{clearance}spare 2\nplace 258\n\
         register 7 4294967295\nregister 0 1\nmessage 8 9 16909060\nmessage 0 0 0\n"
    );
    let mut should = vec![first_byte, 0, 4, 0, 0, 0, 0, 7];
    should.extend([0; 15 * 2]);
    should.extend(front);
    should.extend([2, 1, 2]);
    should.extend([[0, 0, 0, 1], [0; 4], [0; 4], [0; 4], [0; 4], [0; 4], [0; 4], [255; 4]].concat());
    should.extend([8, 9, 1, 2, 3, 4, 0, 0, 0, 0, 0, 0]);
    assert_eq!(image(&text), Ok(should), "{text}");
}

#[test]
fn every_field_has_its_place_in_each_version() {
    for version in ["", "version 1\n"] {
        expect_fields(version, "", 1, &[0, 37 + 2 * 6, 4, 3]);
    }
    for (clearance, byte) in [("clearance 7\n", 7), ("clearance 0\n", 0), ("", 15)] {
        expect_fields("version 2\n", clearance, 2, &[0, 38 + 2 * 6, 4, 3, byte]);
    }
}

/// The shortest program, and this below it.
fn with_program(rest: &str) -> String {
    format!("program\nend 0 0 0\n{rest}")
}

#[test]
fn fields_share_lines() {
    let apart = with_program("slot 4\nlabel 3\nregister 2 9\nmessage 0 1 2\nmessage 0 1 2\n");
    assert_eq!(image(&with_program("slot 4 label 3 register 2 9\nmessage 0 1 2 message 0 1 2\n")), image(&apart));
    assert!(image(&apart).is_ok());
}

#[test]
fn the_host_is_sender_16() {
    let bytes = image(&with_program("slot 15 message 3 host 5 message 3 16 5")).unwrap();
    assert_eq!(bytes[bytes.len() - 12..], [3, 16, 0, 0, 0, 5, 3, 16, 0, 0, 0, 5]);
}

#[test]
fn names_are_places() {
    let text = "program\nfirst:\nalso-first:\ngo last_2 0 0\nlast_2:\npoll 1 2 first\nbehind:\nslot 0\nplace behind\n";
    let bytes = image(text).unwrap();
    assert_eq!(bytes[3..11], [5, 1, 0, 0, 10, 1, 2, 0]);
    assert_eq!(bytes[12..19], [0, 37, 1, 0, 0, 0, 2]);
}

#[test]
fn what_is_not_given_is_0() {
    let nothing = [&[1, 0, 4], &[0; 4][..], &[0], &[0; 16 * 2]].concat();
    assert_eq!(image(&with_program("")), Ok(nothing.clone()));
    assert_eq!(image("# a comment\n\n   \t# another\nprogram # and one behind a word\r\nend\t0  0 0\r\n"), Ok(nothing));
}

/// The version says what all records have, also those ahead of its line.
#[test]
fn the_version_may_stand_anywhere() {
    let parts = ["program\nend 0 0 0\n", "turn 3\n", "slot 0\nclearance 6\nlabel 4\n", "slot 1 label 1 clearance 3\n"];
    let should = image(&format!("version 2\n{}", parts.concat())).unwrap();
    assert_eq!(should[..8], [2, 0, 4, 0, 0, 0, 0, 3]);
    assert_eq!(should[8..14], [0, 38, 1, 4, 6, 0]);
    for at in 1..=parts.len() {
        let (ahead, behind) = parts.split_at(at);
        assert_eq!(image(&[ahead, &["version 2\n"], behind].concat().concat()).as_ref(), Ok(&should), "{at}");
    }
}

/// These break the rules of 01 and U5 for tasks and the turn slot, which the monitor judges.
#[test]
fn rules_for_tasks_are_left_to_the_monitor() {
    let rests = [
        "turn 16\n",
        "slot 3\nspare 13\n",
        "slot 0\nkind 9\nmessage 255 17 0\n",
        "slot 0\nplace 2\n",
        "slot 0\nkind 6\n",
    ];
    for rest in rests {
        assert!(image(&with_program(rest)).is_ok(), "{rest}");
        assert!(image(&with_program(&format!("version 2\n{rest}"))).is_ok(), "{rest}");
    }
    for rest in ["slot 0\nclearance 255\n", "slot 0\nlabel 8\nclearance 7\n"] {
        assert!(image(&with_program(&format!("version 2\n{rest}"))).is_ok(), "{rest}");
    }
}

/// Each text has the fault beside it, told with its line.
fn expect_faults(texts: &[(&str, &str)]) {
    for (text, should) in texts {
        let fault = image(text).expect_err(text);
        assert_eq!(fault.to_string(), *should, "{text}");
    }
}

#[test]
fn faults_of_sections() {
    expect_faults(&[
        ("# none\nend 0 0 0\n", "2: expected `version V`, `program`, `turn SLOT` or `slot SLOT`"),
        ("program 4\n", "1: expected `version V`, `program`, `turn SLOT` or `slot SLOT`"),
        ("turn\n", "1: expected `version V`, `program`, `turn SLOT` or `slot SLOT`"),
        ("slot\n", "1: expected `version V`, `program`, `turn SLOT` or `slot SLOT`"),
        ("program\nend 0 0 0\nprogram\nend 0 0 0\n", "3: this part of the image is given twice"),
        ("turn 0\nturn 1\n", "2: this part of the image is given twice"),
        ("slot 4\nslot 5\nslot 4\n", "3: this part of the image is given twice"),
        ("turn 256\n", "1: `256` is too large for a field of 8 bits"),
        ("turn 0\nlabel 1\n", "2: nothing belongs to `turn` but its slot"),
        ("slot 16\n", "1: there is no slot 16: the last is 15"),
    ]);
}

/// A fault of the version is told ahead of those of other parts, since tasks are read by it.
#[test]
fn faults_of_versions() {
    expect_faults(&[
        ("version\n", "1: expected `version V`, `program`, `turn SLOT` or `slot SLOT`"),
        ("version 2 1\n", "1: expected `version V`, `program`, `turn SLOT` or `slot SLOT`"),
        ("version 3\n", "1: there is no version 3: the last is 2"),
        ("version 256\n", "1: there is no version 256: the last is 2"),
        ("turn 256\nversion 0\n", "2: there is no version 0: the first is 1"),
        ("version 02\n", "1: `02` is not a decimal number without leading zeros"),
        ("version 2\nturn 0\nversion 2\n", "3: this part of the image is given twice"),
        ("version 1\nlabel 1\n", "2: nothing belongs to `version` but its number"),
        ("version 2\n", "1: the text has no `program`"),
    ]);
}

#[test]
fn a_clearance_in_version_1_is_a_fault() {
    expect_faults(&[
        ("slot 0\nlabel 1\nclearance 15\n", "3: an image of version 1 has no clearances: one of `version 2` has"),
        ("slot 0 clearance 15\nversion 1\n", "1: an image of version 1 has no clearances: one of `version 2` has"),
    ]);
}

#[test]
fn faults_of_programs() {
    expect_faults(&[
        ("program\nadd 1 2 3\nhalt 0 0 0\n", "3: `halt` is not an instruction"),
        ("program\nEnd 0 0 0\n", "2: `End` is not an instruction"),
        ("program\nend\n", "2: `end` takes three operands, not 0"),
        ("program\nend 0 0 0 0\n", "2: `end` takes three operands, not 4"),
        ("program\nset 1 00 1\n", "2: `00` is not a decimal number without leading zeros"),
        ("program\nset 1 -1 0\n", "2: `-1` is not a decimal number without leading zeros"),
        ("program\nset 1 +1 0\n", "2: `+1` is not a decimal number without leading zeros"),
        ("program\nset 1 0x1 0\n", "2: `0x1` is not a decimal number without leading zeros"),
        ("program\ngo there 0 0\n", "2: no place has the name `there`"),
        ("program\na:\nend 0 0 0\na:\n", "4: the name `a` is given twice"),
        ("program\n1st:\n", "2: `1st` is not a name: a letter, then letters, digits, - and _"),
        ("program\n:\n", "2: `` is not a name: a letter, then letters, digits, - and _"),
    ]);
}

/// A program without instructions or with more than 256, told with the line of `program`; also where an operand is wrong.
#[test]
fn faults_of_lengths() {
    let many =
        |count: usize| format!("turn 0\nprogram\nset 8 0 0\n{}far:\ngo far 0 0\n", "end 0 0 0\n".repeat(count - 2));
    expect_faults(&[
        ("", "1: the text has no `program`"),
        ("# none\nturn 3\nslot 0\n", "1: the text has no `program`"),
        ("# none\nprogram\nslot 0\n", "2: a program has 1 to 256 instructions, not 0"),
        ("program\nhere:\n", "1: a program has 1 to 256 instructions, not 0"),
        (&many(257), "2: a program has 1 to 256 instructions, not 257"),
        (&many(70_000), "2: a program has 1 to 256 instructions, not 70000"),
        (&many(256), "3: `set` takes a register, 0 to 7, as its first operand, not 8"),
    ]);
}

/// The first operand outside the table, once the form of all lines is right.
#[test]
fn faults_of_operands() {
    expect_faults(&[
        ("program\nend 0 0 1\n", "2: `end` takes 0 as its third operand, not 1"),
        ("program\nset 1 0 256\n", "2: `set` takes a byte, 0 to 255, as its third operand, not 256"),
        (
            "program\nset 1 18446744073709551616 256\n",
            "2: `set` takes a byte, 0 to 255, as its second operand, not 18446744073709551616",
        ),
        ("program\nend 0 0 0\n\nadd 1 2 8\n", "4: `add` takes a register, 0 to 7, as its third operand, not 8"),
        ("program\nraise 16 0 0\n", "2: `raise` takes a label, 0 to 15, as its first operand, not 16"),
        ("program\nsandbox 0 0 0\n", "2: `sandbox` takes a size, 1 to 15, as its third operand, not 0"),
        ("program\nend 0 0 0\ngo 2 0 0\n", "3: `go` takes a place, 0 to 1, as its first operand, not 2"),
        ("program\nzero 0 behind 0\nbehind:\n", "2: `zero` takes a place, 0 to 0, as its second operand, not 1"),
        ("program\nset 8 0 0\nset 9 0 0\nhalt 0 0 0\n", "4: `halt` is not an instruction"),
    ]);
}

#[test]
fn faults_of_tasks() {
    let no_field = |at: &str| {
        format!(
            "{at}: expected `kind K`, `label L`, `clearance C`, `spare K`, `place P`, `register R VALUE` or \
             `message LABEL SENDER VALUE`"
        )
    };
    let full = format!("turn 0\nslot 0\n{}", "message 0 0 0\n".repeat(10_917));
    let full_2 = format!("{full}version 2\n");
    expect_faults(&[
        ("slot 0 0\n", &(no_field("1") + " at `0`")),
        ("slot 0 label 1 kind\n", &(no_field("1") + " at `kind`")),
        ("slot 0\nmessage 0 0\n", &(no_field("2") + " at `message 0 0`")),
        ("slot 0\nend 0 0 0\n", &(no_field("2") + " at `end 0 0 0`")),
        ("slot 0\nmessage 0 Host 0\n", "2: `Host` is neither `host` nor a decimal number without leading zeros"),
        ("slot 0\nmessage 0 256 0\n", "2: `256` is too large for a field of 8 bits"),
        ("slot 0\nmessage host 0 0\n", "2: `host` is not a decimal number without leading zeros"),
        ("slot 0\nplace 65536\n", "2: `65536` is too large for a field of 16 bits"),
        ("slot 0\nplace start\nprogram\nstart:\n", "2: no place has the name `start`"),
        ("slot 0\nregister 8 0\n", "2: there is no register 8: the last is 7"),
        ("slot 0\nregister 1 4294967296\n", "2: `4294967296` is too large for a field of 32 bits"),
        ("slot 0 register 1 1\nregister 1 2\n", "2: `register 1` is given twice"),
        ("slot 0\nlabel 1\n\nlabel 1\n", "4: `label` is given twice"),
        ("version 2\nslot 0 clearance 7\nclearance 7\n", "3: `clearance` is given twice"),
        ("version 2\nslot 0\nclearance\n", &(no_field("3") + " at `clearance`")),
        ("version 2\nslot 0\nclearance 256\n", "3: `256` is too large for a field of 8 bits"),
        (&full, "2: 65539 bytes are too many for a 2-byte length"),
        (&full_2, "2: 65540 bytes are too many for a 2-byte length"),
    ]);
}

// ---- the program

fn imagetext(arguments: &[&str]) -> Output {
    Command::new(env!("CARGO_BIN_EXE_imagetext")).args(arguments).output().unwrap()
}

fn file(name: &str, text: &str) -> String {
    let path = format!("{}/{name}", env!("CARGO_TARGET_TMPDIR"));
    std::fs::write(&path, text).unwrap();
    path
}

#[test]
fn the_program_writes_the_image() {
    let output = imagetext(&[&file("b.txt", B)]);
    assert_eq!((output.status.code(), output.stdout, output.stderr), (Some(0), b(), vec![]));
}

#[test]
fn the_program_names_file_and_line() {
    let path = file("fault.txt", "program\nhalt 0 0 0\n");
    let output = imagetext(&[&path]);
    let message = format!("{path}:2: `halt` is not an instruction\n");
    assert_eq!((output.status.code(), output.stdout, output.stderr), (Some(1), vec![], message.into_bytes()));
}

#[test]
fn the_program_says_how_it_is_used() {
    for arguments in [&[][..], &["a", "b"]] {
        let output = imagetext(arguments);
        let usage = b"usage: imagetext FILE\n".to_vec();
        assert_eq!((output.status.code(), output.stdout, output.stderr), (Some(2), vec![], usage));
    }
    assert_eq!(imagetext(&["no such file"]).status.code(), Some(1));
}
