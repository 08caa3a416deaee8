//! The constants, and the numbers, words and sentences of refusals, are those of include/rithennaw.h; the header's limits
//! are those of the definitions.

use rithennaw::{Label, Refusal, Slot, HOST, IMAGE_MAX, IMAGE_MIN, LISTING_MAX, PROGRAM_MAX, SHEET_MAX, TURNS_MAX};
use std::fs;

/// A file of the repository.
fn file(path: &str) -> String {
    fs::read_to_string(format!("{}/../../{path}", env!("CARGO_MANIFEST_DIR"))).unwrap()
}

fn header() -> String {
    file("include/rithennaw.h")
}

/// The number behind these words, which begin a line.
fn behind(text: &str, words: &str) -> Option<u64> {
    text.lines().find_map(|line| line.strip_prefix(words))?.trim_end_matches(';').parse().ok()
}

/// The number that the header defines under a name.
fn defined(header: &str, name: &str) -> Option<u64> {
    behind(header, &format!("#define RITHENNAW_{name} "))
}

#[test]
fn constants_are_the_headers() {
    let header = header();
    assert_eq!(defined(&header, "IMAGE_MIN"), Some(IMAGE_MIN as u64));
    assert_eq!(defined(&header, "IMAGE_MAX"), Some(IMAGE_MAX as u64));
    assert_eq!(defined(&header, "SHEET_MAX"), Some(SHEET_MAX as u64));
    assert_eq!(defined(&header, "PROGRAM_MAX"), Some(PROGRAM_MAX as u64));
    assert_eq!(defined(&header, "LISTING_MAX"), Some(LISTING_MAX as u64));
    assert_eq!(defined(&header, "TURNS_MAX"), Some(TURNS_MAX));
    assert_eq!(defined(&header, "OBSERVER_MAX"), Some(u8::from(Label::TOP).into()));
    assert_eq!(defined(&header, "LABEL_MAX"), Some(u8::from(Label::TOP).into()));
    assert_eq!(defined(&header, "SLOT_MAX"), Slot::all().last().map(|slot| slot.number().into()));
    assert_eq!(defined(&header, "HOST"), Some(HOST.into()));
}

#[test]
fn the_headers_limits_are_the_definitions() {
    let header = header();
    let limits = file("crates/machine/specs/Limits.antt");
    let names = [
        ("IMAGE_MIN", "shortest_image"),
        ("IMAGE_MAX", "longest_image"),
        ("SHEET_MAX", "sheet_room"),
        ("PROGRAM_MAX", "longest_program"),
        ("LISTING_MAX", "longest_listing"),
        ("TURNS_MAX", "turn_limit"),
        ("OBSERVER_MAX", "highest_label"),
        ("LABEL_MAX", "highest_label"),
        ("SLOT_MAX", "highest_slot"),
        ("HOST", "host"),
    ];
    for (name, definition) in names {
        let limit = behind(&limits, &format!("{definition} = "));
        assert!(limit.is_some(), "{definition}");
        assert_eq!(defined(&header, name), limit, "{name}");
    }
    // number 10's sentence says that no sender is above the host
    assert!(limits.lines().any(|line| line == "highest_sender = host"));
}

/// The numbers of the header's enum, in order: name, number, and the sentence in the comment ahead of it.
fn listed(header: &str) -> Vec<(&str, u8, &str)> {
    let lines: Vec<&str> = header.lines().map(str::trim).collect();
    let listed = lines.windows(2).filter_map(|pair| {
        let (name, number) = pair[1].strip_prefix("RITHENNAW_")?.trim_end_matches(',').split_once(" = ")?;
        let sentence = pair[0].strip_prefix("/* ")?.strip_suffix(" */")?;
        Some((name, number.parse().ok()?, sentence))
    });
    listed.collect()
}

/// The cases of `rithennaw_refusal_text`, in order: name and sentence.
fn cases(header: &str) -> Vec<(&str, &str)> {
    let cases = header.lines().filter_map(|line| {
        let case = line.trim().strip_prefix("case RITHENNAW_")?.strip_suffix("\";")?;
        case.split_once(": return \"")
    });
    cases.collect()
}

#[test]
fn refusals_are_the_headers() {
    let header = header();
    let names = Refusal::ALL.iter().map(|refusal| refusal.word().to_uppercase().replace(' ', "_"));
    let names: Vec<String> = names.map(|name| format!("REFUSED_{name}")).collect();
    let refusals = names.iter().zip(Refusal::ALL).map(|(name, refusal)| (&name[..], refusal.number(), refusal.text()));
    let accepted = ("ACCEPTED", 0, "The call was accepted.");
    assert_eq!(listed(&header), [accepted].into_iter().chain(refusals).collect::<Vec<_>>());
}

#[test]
fn the_headers_function_returns_the_sentences_of_its_comments() {
    let header = header();
    let sentences: Vec<_> = listed(&header).into_iter().map(|(name, _, sentence)| (name, sentence)).collect();
    assert_eq!(cases(&header), sentences);
}
