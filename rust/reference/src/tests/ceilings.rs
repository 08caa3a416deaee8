//! Ceilings: what a clearance stops, what it leaves alone, and who has it.

use super::calls::seen;
use super::posts::{posted, seen as viewed};
use super::{after, image, is_subset, labels_and_clearances, mail, turned, written, END, ROOM, UNTOUCHED};
use crate::{looks, sheet, slotsheet};
use layout::{Image, Instruction, Task};

/// A version 2 image of this program with a live task of this label and clearance in slot 2, among others of other
/// clearances; its turn is next.
fn town(program: &[Instruction], label: u8, clearance: u8) -> Image {
    let mut town = Image { version: 2, turn_slot: 2, ..image(program, &[]) };
    let (registers, mail) = ([100, 101, 102, 103, 104, 105, 106, 107], mail([(0, 1, 10), (5, 16, 20), (15, 3, 30)]));
    let neighbour = Task { place: 1, registers, mail, ..Task::default() };
    town.slots[0] = Some(Task { clearance: 0, spare: 1, ..neighbour.clone() });
    town.slots[2] = Some(Task { label, clearance, spare: 3, ..neighbour.clone() });
    town.slots[6] = Some(Task { kind: 6, label: 8, clearance: 9, ..neighbour.clone() });
    town.slots[15] = Some(Task { kind: 4, label: 15, clearance: 15, ..neighbour });
    town
}

/// The labels and clearances that a task may have.
fn accepted() -> impl Iterator<Item = (u8, u8)> {
    labels_and_clearances().filter(|&(label, clearance)| is_subset(label, clearance))
}

/// One turn makes this change to the task in slot 2 and no other.
fn assert_step(image: &Image, change: impl FnOnce(&mut Task)) {
    let mut expected = image.clone();
    expected.turn_slot = 3;
    change(expected.task(2));
    assert_eq!(after(image, 1), (expected.bytes(), 1));
}

#[test]
fn a_raise_that_would_leave_the_clearance_stops_the_task_and_any_other_joins() {
    for (label, clearance) in accepted() {
        for raised in 0..16 {
            let image = town(&[END, [7, raised, 0, 0], END], label, clearance);
            assert_step(&image, |task| {
                if is_subset(label | raised, clearance) {
                    (task.label, task.place) = (label | raised, 2);
                } else {
                    task.kind = 6;
                }
            });
        }
    }
}

/// Whatever clearance is left out of its bytes.
#[test]
fn in_version_1_every_raise_joins() {
    for (label, raised) in labels_and_clearances() {
        let mut image = Image { version: 1, ..town(&[END, [7, raised, 0, 0], END], label, label) };
        image.task(6).kind = 2;
        assert_step(&image, |task| (task.label, task.place) = (label | raised, 2));
    }
}

#[test]
fn kind_6_never_runs_again() {
    for instruction in [END, [5, 0, 0, 0], [7, 0, 0, 0], [7, 1, 0, 0], [9, 1, 2, 0], [11, 1, 0, 1]] {
        for place in 0..=2 {
            let mut image = town(&[instruction; 2], 1, 3);
            (image.task(0).kind, image.task(2).kind, image.task(2).place) = (5, 6, place);
            let mut expected = image.clone();
            expected.turn_slot = 3;
            assert_eq!(after(&image, 1 + 16 * 5), (expected.bytes(), 0));
        }
    }
}

#[test]
fn a_task_stopped_by_its_clearance_stays_at_its_raise() {
    let mut image = town(&[[7, 1, 0, 0], [7, 2, 0, 0], [7, 4, 0, 0], END], 0, 3);
    (image.task(0).kind, image.task(2).place) = (2, 0);
    let mut expected = image.clone();
    expected.turn_slot = 3;
    (expected.task(2).kind, expected.task(2).label, expected.task(2).place) = (6, 3, 2);
    assert_eq!(after(&image, 1 + 16 * 2), (expected.bytes(), 3));
    assert_eq!(after(&image, 1 + 16 * 1000), (expected.bytes(), 3));
}

#[test]
fn kind_6_receives_nothing() {
    for label in 0..16 {
        let mut image = town(&[END, [8, 3, label, 4], END], 0, 15);
        image.task(2).registers[3] = 6;
        assert_step(&image, |task| task.place = 2);
        let bytes = image.bytes();
        assert_eq!(posted(&bytes, 6, label, 700), (bytes, false));
    }
}

#[test]
fn the_mail_of_kind_6_is_counted_like_that_of_a_live_task() {
    let image = town(&[END], 0, 0);
    let printed = looks(&image.bytes());
    let slot = |slot: usize| &printed[slot * 32..][..32];
    assert_eq!(slot(6), [1, 3].repeat(16));
    assert_eq!(slot(6), slot(0));
}

/// A task in slot 3 has a child in slot 5, which raises this label and then has a child in slot 6, which raises all.
fn family(raised: u8, label: u8, clearance: u8) -> Image {
    let program = [[11, 1, 2, 3], END, [7, raised, 0, 0], [11, 1, 5, 2], END, [7, 15, 0, 0]];
    let mut family = Image { version: 2, turn_slot: 3, ..image(&program, &[]) };
    family.slots[3] = Some(Task { label, clearance, spare: 4, ..Task::default() });
    family
}

/// What becomes of the family.
fn grown_family(raised: u8, label: u8, clearance: u8) -> Image {
    let mut family = family(raised, label, clearance);
    let registers = |parent, child| [parent, child, 0, 0, 0, 0, 0, 0];
    let parent = family.task(3);
    (parent.kind, parent.place, parent.spare, parent.registers) = (2, 1, 1, registers(0, 5));
    let child = Task { label, clearance, registers: registers(3, 0), ..Task::default() };
    if !is_subset(label | raised, clearance) {
        family.slots[5] = Some(Task { kind: 6, place: 2, spare: 2, ..child });
        return family;
    }
    let label = label | raised;
    family.slots[5] = Some(Task { kind: 2, label, place: 4, registers: registers(3, 6), ..child });
    let grandchild = Task { clearance, spare: 1, registers: registers(5, 0), ..Task::default() };
    family.slots[6] = Some(if clearance == 15 {
        Task { kind: 3, label: 15, place: 6, ..grandchild }
    } else {
        Task { kind: 6, label, place: 5, ..grandchild }
    });
    family
}

#[test]
fn a_child_inherits_the_clearance_and_is_stopped_by_it() {
    for (label, clearance) in accepted() {
        for raised in 0..16 {
            let (grown, _) = after(&family(raised, label, clearance), 16 * 4);
            assert_eq!(grown, grown_family(raised, label, clearance).bytes());
        }
    }
}

#[test]
fn messages_are_none_of_the_clearances_affair() {
    for (label, clearance) in accepted() {
        for sent in 0..16 {
            let mut image = town(&[END, [8, 3, sent, 4], END], label, clearance);
            image.task(2).registers[3] = 2;
            let mut with_post = image.clone();
            with_post.task(2).mail.extend(mail([(sent, 16, 700)]));
            assert_eq!(posted(&image.bytes(), 2, sent, 700), (with_post.bytes(), true));
            assert_step(&image, |task| {
                if is_subset(label, sent) {
                    task.place = 2;
                    task.mail.extend(mail([(sent, 2, 104)]));
                } else {
                    task.kind = 4;
                }
            });
        }
    }
}

#[test]
fn what_is_receivable_is_a_matter_of_the_label_alone() {
    for (label, clearance) in accepted() {
        let receivable = if is_subset(5, label) { 2 } else { 1 } + u32::from(label == 15);
        let image = town(&[END, [13, 3, 0, 0], END], label, clearance);
        assert_step(&image, |task| (task.place, task.registers[3]) = (2, receivable));
        let image = town(&[END, [9, 3, 4, 0], END], label, clearance);
        assert_step(&image, |task| {
            (task.place, task.registers[3], task.registers[4]) = (2, 10, 1);
            task.mail.remove(0);
        });
    }
}

#[test]
fn a_view_hides_by_labels_alone_and_keeps_the_clearances() {
    for (label, clearance) in accepted() {
        let town = town(&[END, END], label, clearance);
        for observer in 0..16 {
            assert_eq!(viewed(&town.bytes(), observer), seen(town.clone(), observer).bytes());
        }
    }
}

/// The secrecy rule: an image and the observer's view of it have equal views after so many turns, whichever tasks are
/// stopped by their clearances on the way.
#[test]
fn what_an_observer_may_not_see_changes_nothing_that_it_sees() {
    let program =
        [[12, 2, 3, 0], [10, 4, 5, 2], [7, 2, 0, 0], [8, 3, 15, 4], [11, 1, 1, 1], [7, 4, 0, 0], [8, 3, 7, 4]];
    for (label, clearance) in accepted() {
        let bytes = town(&program, label, clearance).bytes();
        for observer in 0..16 {
            let view = viewed(&bytes, observer);
            for count in [1, 15, 17, 33, 49, 65, 81, 97, 200] {
                let [whole, part] = [&bytes, &view].map(|bytes| viewed(&turned(bytes, count).0, observer));
                assert_eq!(whole, part);
            }
        }
    }
}

#[test]
fn a_sheet_shows_kind_6_and_no_clearance() {
    let expected = "slot kind label spare pc mail\n0 1 0 1 1 1\n2 1 1 3 1 1\n6 6 8 0 1 1\n";
    for clearance in [1, 3, 5, 9, 11, 15] {
        let bytes = town(&[END], 1, clearance).bytes();
        let mut out = [UNTOUCHED; ROOM];
        let answer = sheet(&bytes, 9, &mut out);
        assert_eq!((answer.number, answer.busy), (0, 0));
        assert_eq!(written(answer.length, &out), expected.as_bytes());
        assert_eq!(slotsheet(&[&[9], &bytes[..]].concat()), expected.as_bytes());
    }
}
