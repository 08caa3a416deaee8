//! The host's posts: what is delivered, what is dropped, and what a task and an observer see of it.

use super::{assert_after, bytes_in_versions, image, mail, written, END, ROOM, UNTOUCHED};
use crate::{post, view, PostAnswer};
use layout::{Image, Instruction, Task, SLOTS};

/// The live tasks of `town`: slot, label and spare.
const LIVE: [(usize, u8, u8); 4] = [(0, 0, 1), (2, 1, 0), (7, 5, 3), (15, 15, 0)];

/// The stopped tasks of `town`: slot and kind.
const STOPPED: [(usize, u8); 4] = [(3, 2), (4, 3), (5, 4), (6, 5)];

/// Live and stopped tasks with figures and mail; the turn slot is none of theirs.
fn town() -> Image {
    let (registers, mail) = ([100, 101, 102, 103, 104, 105, 106, 107], mail([(0, 1, 10), (5, 16, 20), (2, 3, 30)]));
    let neighbour = Task { place: 1, registers, mail, ..Task::default() };
    let mut town = image(&[END, [9, 3, 4, 0], END], &[]);
    town.turn_slot = 9;
    for (slot, label, spare) in LIVE {
        town.slots[slot] = Some(Task { label, spare, ..neighbour.clone() });
    }
    for (slot, kind) in STOPPED {
        town.slots[slot] = Some(Task { kind, ..neighbour.clone() });
    }
    town
}

/// The image after an accepted post, and whether it was delivered.
pub(super) fn posted(image: &[u8], slot: usize, label: u8, value: u32) -> (Vec<u8>, bool) {
    let mut out = [UNTOUCHED; ROOM];
    let answer = post(image, slot as u32, label.into(), value, &mut out);
    assert_eq!(answer.number, 0);
    (written(answer.length, &out), answer.delivered)
}

/// The image after a post that is delivered: in each version the message joins the end of the mailbox, and all else
/// stays.
fn delivered(image: &Image, slot: usize, label: u8, value: u32) -> Image {
    let mut expected = image.clone();
    expected.task(slot).mail.extend(mail([(label, 16, value)]));
    for (bytes, expected) in bytes_in_versions(image).iter().zip(bytes_in_versions(&expected)) {
        assert_eq!(posted(bytes, slot, label, value), (expected, true));
    }
    expected
}

/// Posts of this label to this slot are dropped: the image stays, in each version.
fn assert_dropped(image: &Image, slot: usize, label: u8) {
    for bytes in bytes_in_versions(image) {
        assert_eq!(posted(&bytes, slot, label, 700), (bytes, false));
    }
}

#[test]
fn posts_join_the_end_of_a_live_tasks_mailbox_and_change_nothing_else() {
    for (slot, _, _) in LIVE {
        for label in 0..16 {
            for value in [0, 700, u32::MAX] {
                delivered(&town(), slot, label, value);
            }
        }
    }
}

#[test]
fn posts_are_delivered_whatever_slot_and_place_come_next() {
    for turn_slot in [0, 2, 15] {
        let mut image = image(&[END], &[2]);
        (image.turn_slot, image.task(2).place) = (turn_slot, 1);
        delivered(&image, 2, 0, 700);
    }
}

#[test]
fn posts_to_unused_slots_are_dropped() {
    for slot in (0..SLOTS).filter(|&slot| town().slots[slot].is_none()) {
        for label in 0..16 {
            assert_dropped(&town(), slot, label);
        }
    }
}

#[test]
fn posts_to_stopped_tasks_are_dropped() {
    for (slot, _) in STOPPED {
        for label in 0..16 {
            assert_dropped(&town(), slot, label);
        }
    }
}

#[test]
fn a_full_label_drops_posts_and_others_get_in() {
    let mut image = image(&[END], &[2, 3]);
    image.task(2).mail = mail([(7, 1, 0), (7, 16, 1), (6, 16, 2), (7, 16, 3), (7, 2, 4)]);
    assert_dropped(&image, 2, 7);
    for label in (0..16).filter(|&label| label != 7) {
        delivered(&image, 2, label, 700);
    }
    delivered(&image, 3, 7, 700);
    image.task(2).mail.pop();
    assert_dropped(&delivered(&image, 2, 7, 700), 2, 7);
}

#[test]
fn four_posts_of_each_label_fill_a_mailbox() {
    let mut image = image(&[END], &[2]);
    for value in 0..4 {
        for label in 0..16 {
            image = delivered(&image, 2, label, value);
        }
    }
    assert_eq!(image.task(2).mail.len(), 64);
    for label in 0..16 {
        assert_dropped(&image, 2, label);
    }
}

/// A post of this label to a task of label 5 in slot 2 is delivered; the instruction that the task, at place 1, then
/// carries out makes this change to it.
fn assert_step_after_post(instruction: Instruction, label: u8, change: impl FnOnce(&mut Task)) {
    let mut image = image(&[END, instruction, END], &[2]);
    image.turn_slot = 2;
    (image.task(2).label, image.task(2).place) = (5, 1);
    let mut expected = delivered(&image, 2, label, 700);
    let before = expected.clone();
    expected.turn_slot = 3;
    change(expected.task(2));
    assert_after(&before, 1, &expected, 1);
}

#[test]
fn take_and_poll_give_16_as_the_sender_of_a_post() {
    for code in [9, 10] {
        assert_step_after_post([code, 3, 4, 0], 4, |task| {
            (task.place, task.registers[3], task.registers[4]) = (2, 700, 16);
            task.mail.clear();
        });
        assert_step_after_post([code, 3, 3, 0], 4, |task| {
            (task.place, task.registers[3]) = (2, 16);
            task.mail.clear();
        });
    }
}

#[test]
fn a_post_that_does_not_flow_to_the_tasks_label_waits_there() {
    for label in [2, 7, 8, 15] {
        assert_step_after_post([9, 3, 4, 0], label, |_| {});
        assert_step_after_post([10, 3, 4, 0], label, |task| task.place = 0);
    }
}

#[test]
fn the_output_may_be_as_long_as_the_answer_but_no_shorter() {
    for bytes in bytes_in_versions(&town()) {
        for (slot, joined) in [(7, true), (6, false), (1, false)] {
            let (after, _) = posted(&bytes, slot, 0, 700);
            assert_eq!(after.len(), bytes.len() + if joined { 6 } else { 0 });
            let mut out = vec![UNTOUCHED; after.len()];
            let short = post(&bytes, slot as u32, 0, 700, &mut out[..after.len() - 1]);
            assert_eq!(short, PostAnswer { number: 13, length: 0, delivered: false });
            assert!(out.iter().all(|&byte| byte == UNTOUCHED));
            let exact = post(&bytes, slot as u32, 0, 700, &mut out);
            assert_eq!(exact, PostAnswer { number: 0, length: after.len(), delivered: joined });
            assert_eq!(out, after);
        }
    }
}

/// The observer's view of an accepted image.
pub(super) fn seen(image: &[u8], observer: u8) -> Vec<u8> {
    let mut out = [UNTOUCHED; ROOM];
    let answer = view(image, observer.into(), &mut out);
    assert_eq!(answer.number, 0);
    written(answer.length, &out)
}

/// Equal views thus stay equal: after a post that flows to the observer, the view is that of the same post to the view;
/// any other post leaves the view as it was. A label is full in slot 7.
#[test]
fn an_observer_sees_of_a_post_what_the_view_tells() {
    let mut town = town();
    town.task(7).mail.extend(mail([(5, 2, 40); 3]));
    bytes_in_versions(&town).iter().for_each(|bytes| assert_posts_seen(bytes));
}

/// Whatever the observer, the slot and the label: the view after the post is what the view before it tells.
fn assert_posts_seen(bytes: &[u8]) {
    for (observer, label) in (0..16).flat_map(|observer| (0..16).map(move |label| (observer, label))) {
        let view = seen(bytes, observer);
        for slot in 0..SLOTS {
            let (after, _) = posted(bytes, slot, label, 700);
            let flows = label | observer == observer;
            let expected = if flows { posted(&view, slot, label, 700).0 } else { view.clone() };
            assert_eq!(seen(&after, observer), expected);
        }
    }
}
