//! The scope document's checked examples, with both implementations and the values that it gives; and posts, by the
//! words of U1.

mod both;

use both::{accepted, b, both_give, live, post_gives, refused, turns_give};
use differential::calls::{Call, Post};
use layout::{Image, Message, Task};

/// Messages of a label, from slot 0.
fn messages(label: u8, value: u32, count: usize) -> Vec<Message> {
    vec![Message { label, sender: 0, value }; count]
}

/// P2: B after 1 turn.
fn p2() -> Image {
    let mut image = b();
    image.turn_slot = 1;
    image.task(0).place = 1;
    image.task(5).mail = messages(0, 700, 1);
    image
}

#[test]
fn b_has_these_bytes() {
    let mut bytes = vec![1, 0, 16, 8, 1, 0, 2, 0, 0, 0, 0, 9, 3, 4, 0, 0, 0, 0, 0, 0];
    bytes.extend([0, 37, 1, 0, 0, 0, 0, 0, 0, 0, 0, 0, 0, 0, 5, 0, 0, 0x02, 0xbc]);
    bytes.extend([0; 5 * 4 + 4 * 2]);
    bytes.extend([0, 37, 1, 0, 0, 0, 2]);
    bytes.extend([0; 8 * 4 + 10 * 2]);
    assert_eq!(b().bytes(), bytes);
    accepted(&b());
}

#[test]
fn p1_label_5_flows_to_7_and_not_to_6() {
    let mut image = b();
    image.task(0).label = 5;
    both_give(Call::View(7), &image, Ok((image.bytes(), 0)));
    let mut shown = image.clone();
    shown.slots[0] = None;
    both_give(Call::View(6), &image, Ok((shown.bytes(), 0)));
}

#[test]
fn p2_b_after_1_turn() {
    turns_give(&b(), 1, &p2(), 1);
}

#[test]
fn p3_b_after_6_turns() {
    let mut after = b();
    after.turn_slot = 6;
    after.task(0).place = 1;
    after.slots[5] = Some(Task { registers: [0, 0, 0, 700, 0, 0, 0, 0], ..live(3) });
    turns_give(&b(), 6, &after, 2);
}

#[test]
fn p4_a_send_that_the_label_forbids_stops_the_sender() {
    let mut image = b();
    image.task(0).label = 1;
    let mut after = image.clone();
    after.turn_slot = 1;
    after.task(0).kind = 4;
    turns_give(&image, 1, &after, 1);
}

#[test]
fn p5_a_message_above_the_receivers_label_waits() {
    let mut image = b();
    image.program[0][2] = 2;
    let mut after = image.clone();
    after.turn_slot = 6;
    after.task(0).place = 1;
    let shown = after.clone();
    after.task(5).mail = messages(2, 700, 1);
    turns_give(&image, 6, &after, 2);
    both_give(Call::View(0), &after, Ok((shown.bytes(), 0)));
}

/// Slot 3 with spare 4 makes a task of that size: the image before, and after its turn if nothing came of it. The label
/// and register 0 show what the child has of its parent.
fn sandbox(size: u8) -> [Image; 2] {
    let mut image = Image::new(vec![[0x0b, 1, 2, size], [0; 4], [0; 4]]);
    image.turn_slot = 3;
    image.slots[3] = Some(Task { label: 6, spare: 4, registers: [99, 0, 0, 0, 0, 0, 0, 0], ..live(0) });
    let after = Image { turn_slot: 4, ..image.clone() };
    [image, after]
}

/// The task that a sandbox of slot 3 makes.
fn child(spare: u8) -> Option<Task> {
    Some(Task { label: 6, spare, registers: [3, 0, 0, 0, 0, 0, 0, 0], ..live(2) })
}

/// Slot 3 after its sandbox.
fn parent(spare: u8, child: u32) -> Option<Task> {
    Some(Task { label: 6, spare, registers: [99, child, 0, 0, 0, 0, 0, 0], ..live(1) })
}

#[test]
fn p6_a_child_of_size_3_stands_in_slot_5() {
    let [image, mut after] = sandbox(3);
    after.slots[3] = parent(1, 5);
    after.slots[5] = child(2);
    turns_give(&image, 1, &after, 1);
}

#[test]
fn p7_a_child_of_size_4_stands_in_slot_4_and_one_of_size_5_nowhere() {
    let [image, mut after] = sandbox(4);
    after.slots[3] = parent(0, 4);
    after.slots[4] = child(3);
    turns_give(&image, 1, &after, 1);
    let [image, mut after] = sandbox(5);
    after.task(3).kind = 5;
    turns_give(&image, 1, &after, 1);
}

#[test]
fn p8_0_less_1_is_4294967295() {
    let mut image = Image::new(vec![[0x04, 2, 0, 1]]);
    image.slots[0] = Some(Task { registers: [0, 1, 0, 0, 0, 0, 0, 0], ..live(0) });
    let mut after = Image { turn_slot: 1, ..image.clone() };
    after.slots[0] = Some(Task { registers: [0, 1, 4_294_967_295, 0, 0, 0, 0, 0], ..live(1) });
    turns_give(&image, 1, &after, 1);
}

#[test]
fn p9_a_fifth_message_of_a_label_is_dropped_and_another_label_has_room() {
    let mut image = b();
    image.task(5).mail = messages(2, 9, 4);
    let mut after = image.clone();
    after.turn_slot = 1;
    after.task(0).place = 1;
    let mut dropped = after.clone();
    after.task(5).mail.extend(messages(0, 700, 1));
    turns_give(&image, 1, &after, 1);
    image.program[0][2] = 2;
    dropped.program[0][2] = 2;
    turns_give(&image, 1, &dropped, 1);
}

#[test]
fn four_messages_of_a_label_are_accepted_and_five_refused_with_10() {
    let mut image = b();
    image.task(5).mail = messages(6, 1, 4);
    accepted(&image);
    image.task(5).mail = messages(6, 1, 5);
    refused(&image, 10);
}

#[test]
fn spare_12_in_slot_3_is_accepted_and_13_refused_with_9() {
    let mut image = Image::new(vec![[0; 4]]);
    image.slots[3] = Some(Task { spare: 12, ..live(0) });
    accepted(&image);
    image.task(3).spare = 13;
    refused(&image, 9);
}

#[test]
fn slot_3_with_spare_2_and_slot_5_is_refused_with_12_and_slot_6_accepted() {
    let mut image = Image::new(vec![[0; 4]]);
    image.slots[3] = Some(Task { spare: 2, ..live(0) });
    image.slots[6] = Some(live(0));
    accepted(&image);
    image.slots.swap(5, 6);
    refused(&image, 12);
}

#[test]
fn a_million_turns_are_accepted_and_one_more_refused_with_2() {
    let mut after = b();
    after.slots[0] = Some(Task { kind: 2, registers: [0, 5, 700, 0, 0, 0, 0, 0], ..live(1) });
    after.slots[5] = Some(Task { kind: 2, registers: [0, 0, 0, 700, 0, 0, 0, 0], ..live(3) });
    turns_give(&b(), 1_000_000, &after, 4);
    both_give(Call::Turns(1_000_001), &b(), Err(2));
}

#[test]
fn the_sheet_of_p2_for_observer_0() {
    let sheet = b"slot kind label spare pc mail\n0 1 0 0 1 0\n5 1 0 0 2 1\n";
    both_give(Call::Sheet(0), &p2(), Ok((sheet.to_vec(), 0)));
    assert_eq!(reference::slotsheet(&[vec![0], p2().bytes()].concat()), sheet);
    assert_eq!(reference::slotsheet(&[]), b"refused 3\n");
}

/// A message from the host.
fn from_host(label: u8, value: u32) -> Message {
    Message { label, sender: 16, value }
}

#[test]
fn a_post_joins_the_end_of_a_mailbox_whatever_the_tasks_label() {
    let mut image = b();
    image.task(5).mail = messages(3, 9, 2);
    for label in 0..16 {
        let mut after = image.clone();
        after.task(5).mail.push(from_host(label, 4_000_000_000));
        post_gives(&image, Post { slot: 5, label: label.into(), value: 4_000_000_000 }, &after, true);
    }
}

#[test]
fn a_posted_message_is_taken_with_sender_16() {
    let mut image = b();
    image.turn_slot = 5;
    let mut posted = image.clone();
    posted.task(5).mail.push(from_host(0, 700));
    post_gives(&image, Post { slot: 5, label: 0, value: 700 }, &posted, true);
    let mut after = Image { turn_slot: 6, ..image };
    after.slots[5] = Some(Task { registers: [0, 0, 0, 700, 16, 0, 0, 0], ..live(3) });
    turns_give(&posted, 1, &after, 1);
}

#[test]
fn a_post_is_dropped_at_unused_slots_and_stopped_tasks_and_behind_four_of_its_label() {
    let mut image = b();
    post_gives(&image, Post { slot: 4, label: 0, value: 1 }, &image, false);
    for kind in 2..=5 {
        image.task(5).kind = kind;
        post_gives(&image, Post { slot: 5, label: 0, value: 1 }, &image, false);
    }
    image.task(5).kind = 1;
    image.task(5).mail = messages(2, 9, 4);
    post_gives(&image, Post { slot: 5, label: 2, value: 1 }, &image, false);
    let mut after = image.clone();
    after.task(5).mail.push(from_host(0, 1));
    post_gives(&image, Post { slot: 5, label: 0, value: 1 }, &after, true);
}

#[test]
fn slots_above_15_are_refused_with_14_then_labels_with_15_both_ahead_of_the_image() {
    let no_image = Image { cut: Some(0), ..b() };
    for image in [b(), no_image] {
        for above in [16, 17, 255, 256, u32::MAX] {
            both_give(Call::Post(Post { slot: above, label: 0, value: 0 }), &image, Err(14));
            both_give(Call::Post(Post { slot: above, label: above, value: 0 }), &image, Err(14));
            both_give(Call::Post(Post { slot: 5, label: above, value: 0 }), &image, Err(15));
        }
    }
    both_give(Call::Post(Post { slot: 15, label: 15, value: 0 }), &Image { cut: Some(0), ..b() }, Err(3));
}

#[test]
fn sender_16_is_accepted_and_17_refused_with_10() {
    let mut image = b();
    image.task(5).mail = vec![from_host(0, 1)];
    accepted(&image);
    image.task(5).mail = vec![Message { sender: 17, ..from_host(0, 1) }];
    refused(&image, 10);
}
