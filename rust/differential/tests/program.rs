//! The program: what it prints is counted, it tells which trials are too few, and a slotsheet or lookprobe that prints
//! something else is a mismatch.

use differential::{looks, slotsheet};
use std::process::{Command, Output};

fn differential(arguments: &[&str]) -> Output {
    Command::new(env!("CARGO_BIN_EXE_differential")).args(arguments).output().unwrap()
}

/// The calls in the printed counts: a line for each number, with a count for each call that may tell one, and a line of
/// records, with commas.
fn calls(printed: &str) -> u64 {
    let mut lines = printed.lines();
    let heading = lines.next().unwrap_or_default();
    let names = "number rewrite turns post view sheet check-v1 check-v2 check-other assemble disassemble";
    assert!(heading.split_whitespace().eq(names.split(' ')), "{heading}");
    let mut counts = Vec::new();
    for number in 0..=16 {
        let mut line = lines.next().unwrap_or_default().split_whitespace();
        assert_eq!(line.next(), Some(number.to_string().as_str()));
        counts.extend(line);
    }
    let records = lines.next().and_then(|line| line.strip_prefix("record: ")).unwrap_or_default();
    counts.extend(records.split(", ").filter_map(|count| count.rsplit(' ').next()));
    counts.iter().map(|count| count.parse::<u64>().unwrap()).sum()
}

#[test]
fn the_last_line_counts_calls_and_mismatches() {
    // The program `true` prints nothing, which is wrong for every input of slotsheet, and for each accepted one of lookprobe.
    let sheets = slotsheet::inputs().count();
    let looks = looks::inputs().filter(|input| rithennaw::check(input).is_ok()).count();
    assert!(sheets > 300 && looks > 250);
    let mismatches = sheets + looks;
    let output = differential(&["--first", "7", "--seeds", "20", "--slotsheet", "true", "--lookprobe", "true"]);
    let [printed, said] = [output.stdout, output.stderr].map(|text| String::from_utf8(text).unwrap());
    let calls = calls(&printed);
    assert!(calls > 1_000, "{printed}");
    assert_eq!(printed.lines().last(), Some(format!("{calls} calls compared, {mismatches} mismatches").as_str()));
    assert!(said.starts_with("differential: slotsheet, input "), "{said}");
    assert!(said.contains("\ndifferential: fewer than 400000 calls\n"), "{said}");
    for trials in ["secrecy", "desks"] {
        assert!(printed.contains(&format!("\n{trials}: ")), "{printed}");
        assert!(said.contains(&format!("\ndifferential: {trials}, observer 0: fewer than 200 trials\n")), "{said}");
    }
    assert!(!output.status.success());
}

#[test]
fn nothing_is_compared_without_the_programs() {
    let both = ["--slotsheet", "true", "--lookprobe", "true"];
    let unknown = [&["--seed", "1"], &both[..]].concat();
    for arguments in [&[][..], &["--seeds", "1"], &both[..2], &both[2..], &both[..3], &unknown] {
        let output = differential(arguments);
        let usage =
            b"usage: differential [--first SEED] [--seeds N] --slotsheet PROGRAM --lookprobe PROGRAM\n".to_vec();
        assert_eq!((output.stdout, output.stderr, output.status.success()), (vec![], usage, false));
    }
}
