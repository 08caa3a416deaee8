//! Clearances and version 2 by the words of U5, with both implementations and the values that it gives.

mod both;

use both::{accepted, b, both_give, live, post_gives, refused, turns_give};
use differential::calls::{Call, Post};
use differential::images;
use differential::rng::Rng;
use layout::{Image, Message, Task, VERSIONS};

/// The scope document's image B in version 2, with clearances that admit owners 0 and 1.
fn b2() -> Image {
    let mut image = Image { version: 2, ..b() };
    (image.task(0).clearance, image.task(5).clearance) = (3, 3);
    image
}

/// A task in slot 3, whose turn is next, about to raise by a label, in version 2.
fn raising(by: u8, label: u8, clearance: u8) -> Image {
    let mut image = Image { version: 2, turn_slot: 3, ..Image::new(vec![[0x07, by, 0, 0], [0; 4]]) };
    let mail = vec![Message { label: 7, sender: 16, value: 9 }];
    image.slots[3] = Some(Task { label, clearance, spare: 2, registers: [8; 8], mail, ..live(0) });
    image
}

#[test]
fn b_of_version_2_has_a_byte_more_behind_each_label() {
    let mut bytes = vec![2, 0, 16, 8, 1, 0, 2, 0, 0, 0, 0, 9, 3, 4, 0, 0, 0, 0, 0, 0];
    bytes.extend([0, 38, 1, 0, 3, 0, 0, 0, 0, 0, 0, 0, 0, 0, 0, 5, 0, 0, 0x02, 0xbc]);
    bytes.extend([0; 5 * 4 + 4 * 2]);
    bytes.extend([0, 38, 1, 0, 3, 0, 0, 2]);
    bytes.extend([0; 8 * 4 + 10 * 2]);
    assert_eq!(b2().bytes(), bytes);
    accepted(&b2());
}

#[test]
fn b_of_version_2_after_6_turns_is_as_in_p3() {
    let mut after = b2();
    after.turn_slot = 6;
    after.task(0).place = 1;
    after.slots[5] = Some(Task { clearance: 3, registers: [0, 0, 0, 700, 0, 0, 0, 0], ..live(3) });
    turns_give(&b2(), 6, &after, 2);
}

#[test]
fn a_raise_within_the_clearance_joins_the_label() {
    for (by, label, joined) in [(2, 1, 3), (4, 1, 5), (7, 0, 7), (1, 1, 1), (0, 0, 0)] {
        let image = raising(by, label, 7);
        let mut after = Image { turn_slot: 4, ..image.clone() };
        (after.task(3).label, after.task(3).place) = (joined, 1);
        turns_give(&image, 1, &after, 1);
    }
}

#[test]
fn a_raise_that_would_leave_the_clearance_stops_the_task_and_changes_nothing_else() {
    for (by, label, clearance) in [(8, 1, 7), (15, 0, 7), (2, 1, 1), (1, 0, 0), (12, 4, 6)] {
        let image = raising(by, label, clearance);
        let mut after = Image { turn_slot: 4, ..image.clone() };
        after.task(3).kind = 6;
        turns_give(&image, 1, &after, 1);
        let later = Image { turn_slot: 3, ..after };
        turns_give(&image, 16_000, &later, 1);
        turns_give(&later, 16_000, &later, 0);
    }
}

#[test]
fn in_version_1_the_same_raises_join() {
    for (by, label, joined) in [(8, 1, 9), (15, 0, 15), (2, 1, 3), (1, 0, 1), (12, 4, 12)] {
        let image = Image { version: 1, ..raising(by, label, 15) };
        let mut after = Image { turn_slot: 4, ..image.clone() };
        (after.task(3).label, after.task(3).place) = (joined, 1);
        turns_give(&image, 1, &after, 1);
    }
}

#[test]
fn a_task_of_kind_6_gets_no_message() {
    let mut image = b2();
    image.task(5).kind = 6;
    let mut after = Image { turn_slot: 1, ..image.clone() };
    after.task(0).place = 1;
    turns_give(&image, 1, &after, 1);
    post_gives(&image, Post { slot: 5, label: 0, value: 1 }, &image, false);
}

#[test]
fn a_child_inherits_the_clearance() {
    let mut image = raising(0, 4, 6);
    image.program[0] = [0x0b, 1, 1, 2];
    let mut after = Image { turn_slot: 4, ..image.clone() };
    let parent = after.task(3);
    (parent.spare, parent.place, parent.registers[1]) = (0, 1, 4);
    let registers = [3, 0, 0, 0, 0, 0, 0, 0];
    after.slots[4] = Some(Task { label: 4, clearance: 6, spare: 1, registers, ..live(1) });
    turns_give(&image, 1, &after, 1);
}

#[test]
fn a_view_and_a_sheet_have_the_version_and_kind_6() {
    let mut image = raising(8, 1, 3);
    image.task(3).kind = 6;
    let mut shown = image.clone();
    shown.task(3).mail.clear();
    both_give(Call::View(1), &image, Ok((shown.bytes(), 0)));
    both_give(Call::View(15), &image, Ok((image.bytes(), 0)));
    let none = Image { slots: Default::default(), ..image.clone() };
    both_give(Call::View(2), &image, Ok((none.bytes(), 0)));
    both_give(Call::Sheet(1), &image, Ok((b"slot kind label spare pc mail\n3 6 1 2 0 0\n".to_vec(), 0)));
}

#[test]
fn a_clearance_above_15_and_a_label_that_is_no_subset_are_9() {
    for (label, clearance) in [(0, 0), (0, 15), (5, 5), (5, 7), (15, 15)] {
        accepted(&raising(0, label, clearance));
    }
    for (label, clearance) in [(0, 16), (5, 21), (0, 255), (1, 0), (5, 6), (15, 14), (16, 16), (16, 31)] {
        refused(&raising(0, label, clearance), 9);
    }
}

#[test]
fn kind_6_is_of_version_2_only() {
    for (version, kind, number) in [(1, 5, 0), (1, 6, 9), (2, 5, 0), (2, 6, 0), (2, 7, 9), (1, 0, 9), (2, 0, 9)] {
        let mut image = Image { version, ..b2() };
        image.task(5).kind = kind;
        match number {
            0 => accepted(&image),
            _ => refused(&image, number),
        }
    }
}

#[test]
fn lengths_of_one_version_are_8_in_the_other() {
    for version in VERSIONS {
        let image = Image { version, ..b2() };
        accepted(&image);
        refused(&Image { first_byte: Some(3 - version), ..image.clone() }, 8);
        let mut other = image.clone();
        other.record_lengths[5] = Some(37 + u16::from(version == 1));
        refused(&other, 8);
        let empty = Image { slots: Default::default(), ..image };
        accepted(&Image { version: 3 - version, ..empty.clone() });
        accepted(&empty);
    }
}

#[test]
fn versions_other_than_1_and_2_are_4() {
    for (layout, first_byte) in VERSIONS.into_iter().flat_map(|layout| [0, 3, 4, 255].map(|byte| (layout, byte))) {
        refused(&Image { version: layout, first_byte: Some(first_byte), ..b2() }, 4);
        refused(&Image { version: layout, first_byte: Some(first_byte), cut: Some(1), ..b2() }, 4);
    }
}

#[test]
fn a_clearance_is_judged_ahead_of_its_tasks_mail_and_behind_the_slots_ahead() {
    let five = vec![Message { label: 0, sender: 17, value: 0 }; 5];
    let mut image = b2();
    (image.task(5).clearance, image.task(5).mail) = (16, five.clone());
    refused(&image, 9);
    image.task(0).mail = five;
    refused(&image, 10);
    let mut image = Image { tail: vec![0], ..b2() };
    (image.task(0).spare, image.task(5).label, image.task(5).clearance) = (5, 4, 3);
    refused(&image, 9);
    image.record_lengths[4] = Some(37);
    refused(&image, 8);
}

#[test]
fn the_longest_images_have_7796_and_7812_bytes_and_the_shortest_40() {
    for (version, longest) in [(1, 7_796), (2, 7_812)] {
        let image = images::longest(&mut Rng::new(0), version);
        assert_eq!(image.bytes().len(), longest);
        accepted(&image);
        let shortest = Image { version, ..Image::new(vec![[0; 4]]) };
        assert_eq!(shortest.bytes().len(), 40);
        accepted(&shortest);
    }
    assert_eq!(rithennaw::IMAGE_MAX, 7_812);
}
