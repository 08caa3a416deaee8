//! Labels, the numbers that a call is asked with, and refusals: ranges, the order of labels, words and numbers.

use rithennaw::{Label, MessageLabel, Observer, Refusal, Slot};
use std::error::Error;

fn label(number: u8) -> Label {
    Label::try_from(number).unwrap()
}

#[test]
fn a_label_is_a_number_from_0_to_15() {
    for number in 0..=u8::MAX {
        let label = Label::try_from(number);
        assert_eq!(label.is_ok(), number <= 15, "{number}");
        assert_eq!(label.map_or(number, u8::from), number);
    }
    assert_eq!(Label::try_from(16).unwrap_err().to_string(), "16 is not from 0 to 15");
    assert_eq!(Label::all().map(u8::from).collect::<Vec<_>>(), (0..=15).collect::<Vec<_>>());
    assert_eq!((u8::from(Label::PUBLIC), u8::from(Label::TOP)), (0, 15));
    assert_eq!(label(10).to_string(), "10");
}

#[test]
fn p1_label_5_flows_to_7_and_not_to_6() {
    assert!(label(5).flows_to(label(7)));
    assert!(!label(5).flows_to(label(6)));
}

#[test]
fn owners_flow_and_join_go_by_bits() {
    assert_eq!(label(13).owners().collect::<Vec<_>>(), [0, 2, 3]);
    assert_eq!(Label::OWNERS.map(|label| label.owners().collect::<Vec<_>>()), [[0], [1], [2], [3]]);
    for k in Label::all() {
        for m in Label::all() {
            assert_eq!(k.flows_to(m), k.owners().all(|owner| m.owners().any(|other| other == owner)), "{k} to {m}");
            assert_eq!(k.flows_to(m), k.join(m) == m, "{k} to {m}");
            assert_eq!(u8::from(k.join(m)), u8::from(k) | u8::from(m));
        }
    }
}

#[test]
fn an_observer_a_message_label_and_a_slot_are_any_number() {
    assert_eq!(Observer::from(label(9)), Observer::from(9));
    assert_eq!(Observer::from(u32::MAX).number(), u32::MAX);
    assert_eq!(MessageLabel::from(label(9)), MessageLabel::from(9));
    assert_eq!(MessageLabel::from(u32::MAX).number(), u32::MAX);
    assert_eq!(Slot::from(u32::MAX).number(), u32::MAX);
    assert_eq!(Slot::all().map(Slot::number).collect::<Vec<_>>(), (0..16).collect::<Vec<_>>());
}

#[test]
fn a_refusal_is_a_number_from_1_to_16() {
    for number in 0..=u8::MAX {
        let refusal = Refusal::try_from(number);
        assert_eq!(refusal.is_ok(), (1..=16).contains(&number), "{number}");
        assert_eq!(refusal.map_or(number, Refusal::number), number);
    }
    assert_eq!(Refusal::try_from(0).unwrap_err().to_string(), "0 is not from 1 to 16");
    assert!(Refusal::ALL.iter().map(|refusal| refusal.number()).eq(1..=16));
}

#[test]
fn refusals_have_the_words_of_the_scope_document_and_three_more() {
    let words = [
        "observer",
        "turn limit",
        "short",
        "version",
        "program length",
        "instruction",
        "turn slot",
        "record length",
        "task field",
        "mail",
        "tail",
        "estate",
        "output",
        "post slot",
        "post label",
        "text",
    ];
    assert!(Refusal::ALL.iter().map(|refusal| refusal.word()).eq(words));
    let error: Box<dyn Error> = Refusal::Tail.into();
    assert_eq!(error.to_string(), "refused 11 (tail): There are bytes after slot 15.");
}
