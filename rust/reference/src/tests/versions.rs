//! The versions of an image: where the clearance stands, what is read and refused in each version, and that each is
//! written as it was read.

use super::posts::{posted, seen};
use super::refusals::assert_refused;
use super::{image, in_versions, is_subset, kinds, labels_and_clearances, mail, turned, written, END, ROOM, UNTOUCHED};
use crate::clearance::Clearance;
use crate::{check, read, record, rewrite, sheet, slotsheet, step};
use layout::{Image, Instruction, Message, Task, SLOTS, VERSIONS};

/// So many messages, at most four of each label.
fn messages(count: u8) -> Vec<Message> {
    (0..count).map(|index| Message { label: index % 16, sender: 16, value: index.into() }).collect()
}

/// A version 2 image with a task in slot 3; its program has two instructions.
fn ceiled(task: Task) -> Image {
    let mut image = Image { version: 2, ..image(&[END, END], &[]) };
    image.slots[3] = Some(task);
    image
}

/// A version 2 image written out: a task in slot 14 with clearance 7, spare 1 and a message, about to raise its label
/// by 2 where it is at place 0.
fn written_out(turn_slot: u8, label: u8, place: u8) -> Vec<u8> {
    let head = [2, 0, 8, 7, 2, 0, 0, 0, 0, 0, 0, turn_slot];
    let fields = [0, 44, 1, label, 7, 1, 0, place];
    let registers: Vec<u8> = (0..32).collect();
    let message = [6, 16, 0, 0, 2, 188];
    [&head[..], &[0; 28], &fields, &registers, &message, &[0; 2]].concat()
}

#[test]
fn the_clearance_stands_behind_the_label_and_shifts_what_follows() {
    let bytes = written_out(14, 1, 0);
    assert_eq!(turned(&bytes, 1), (written_out(15, 3, 1), 1));
    assert_eq!(record(&bytes, 14), 42..86);
    assert_eq!(slotsheet(&[&[1], &bytes[..]].concat()), b"slot kind label spare pc mail\n14 1 1 1 0 0\n");
}

#[test]
fn the_first_byte_by_itself_is_a_version_or_4() {
    for byte in 0..=255 {
        assert_refused(&[byte], if byte == 1 || byte == 2 { 3 } else { 4 });
    }
}

#[test]
fn without_tasks_the_versions_differ_in_the_first_byte_alone() {
    for first_byte in VERSIONS {
        assert_written_as_read(&Image { first_byte: Some(first_byte), ..image(&[END], &[]) });
    }
}

/// An image that ends behind the length of slot 0 is short, unless that length itself is refused.
#[test]
fn each_version_has_record_lengths_of_its_own() {
    for (version, without_mail) in [(1, 37), (2, 38)] {
        let lengths: Vec<u16> = (0..=64).map(|count| without_mail + 6 * count).collect();
        let head = Image { version, ..image(&[END], &[]) }.head();
        for length in 0..=u16::MAX {
            let number = if length == 0 || lengths.contains(&length) { 3 } else { 8 };
            let bytes = [&head[..], &length.to_be_bytes()].concat();
            assert_eq!(check(&bytes), number, "{length} in version {version}");
        }
    }
}

#[test]
fn a_record_of_one_version_is_8_in_the_other() {
    for count in 0..=64 {
        for mut image in in_versions(&ceiled(Task { mail: messages(count), ..Task::default() })) {
            assert_written_as_read(&image);
            image.first_byte = VERSIONS.into_iter().find(|&version| version != image.version);
            assert_refused(&image.bytes(), 8);
        }
    }
}

#[test]
fn kind_6_is_of_version_2_alone() {
    for (version, last) in [(1, 5), (2, 6)] {
        for kind in 0..=255 {
            let image = Image { version, ..ceiled(Task { kind, ..Task::default() }) };
            assert_eq!(check(&image.bytes()), if (1..=last).contains(&kind) { 0 } else { 9 }, "{kind} in {version}");
        }
    }
    assert_refused(&Image { version: 1, ..ceiled(Task { kind: 6, ..Task::default() }) }.bytes(), 9);
}

#[test]
fn clearances_above_15_are_9() {
    for (label, clearance) in (0..16).flat_map(|label| (16..=255).map(move |clearance| (label, clearance))) {
        assert_eq!(check(&ceiled(Task { label, clearance, ..Task::default() }).bytes()), 9);
    }
    assert_refused(&ceiled(Task { clearance: 16, ..Task::default() }).bytes(), 9);
}

#[test]
fn labels_above_15_are_9_whatever_the_clearance() {
    for (label, clearance) in (16..=255).flat_map(|label| (0..=255).map(move |clearance| (label, clearance))) {
        assert_eq!(check(&ceiled(Task { label, clearance, ..Task::default() }).bytes()), 9);
    }
}

#[test]
fn labels_that_are_no_subset_of_the_clearance_are_9_whatever_the_kind() {
    for (label, clearance) in labels_and_clearances() {
        for kind in kinds(2) {
            let image = ceiled(Task { kind, label, clearance, ..Task::default() });
            if is_subset(label, clearance) {
                assert_written_as_read(&image);
            } else {
                assert_refused(&image.bytes(), 9);
            }
        }
    }
}

/// A change that makes a task's clearance a fault.
type Fault = fn(&mut Task);

const FAULTS: [Fault; 2] = [|task| task.clearance = 16, |task| (task.label, task.clearance) = (4, 3)];

/// Two tasks, of which the one in slot 3 has this fault; the other one, in slot 4, comes behind it.
fn faulty(fault: Fault) -> Image {
    let mut image = ceiled(Task::default());
    fault(image.task(3));
    image.slots[4] = Some(Task::default());
    image
}

/// Each image has a fault in a clearance and another one.
#[test]
fn a_clearance_comes_behind_the_records_length_and_end_and_ahead_of_its_mail() {
    for fault in FAULTS {
        let mut image = faulty(fault);
        let behind_record = image.head().len() + 3 * 2 + 2 + 38;
        image.task(3).mail = mail([(16, 17, 0)]);
        assert_refused(&image.bytes(), 9);
        image.cut = Some(behind_record + 6 - 1);
        assert_refused(&image.bytes(), 3);
        image.record_lengths[3] = Some(37);
        assert_refused(&image.bytes(), 8);

        let mut image = faulty(fault);
        image.cut = Some(behind_record);
        assert_refused(&image.bytes(), 9);
        image.cut = Some(behind_record - 1);
        assert_refused(&image.bytes(), 3);
    }
}

/// A change that makes another fault in the image, and the number given where slot 3 has a fault in its clearance, too.
type Other = (fn(&mut Image), u8);

const OTHERS: [Other; 10] = [
    (|image| image.first_byte = Some(3), 4),
    (|image| image.program_length = Some(3), 5),
    (|image| image.program[1] = [14, 0, 0, 0], 6),
    (|image| image.turn_slot = 16, 7),
    (|image| image.slots[2] = Some(Task { mail: mail([(16, 0, 0)]), ..Task::default() }), 10),
    (|image| image.record_lengths[4] = Some(37), 9),
    (|image| image.cut = Some(image.bytes().len() - 1), 9),
    (|image| image.task(4).mail = mail([(16, 0, 0)]), 9),
    (|image| image.tail = vec![0], 9),
    (|image| image.task(3).spare = 1, 9),
];

#[test]
fn a_clearance_comes_behind_all_in_front_of_its_slot_and_ahead_of_all_behind_it() {
    for fault in FAULTS {
        for (other, number) in OTHERS {
            let mut image = faulty(fault);
            other(&mut image);
            assert_refused(&image.bytes(), number);
        }
    }
}

/// The image is accepted and written again as it was read, also by no turns, a view for label 15 and a post to slot 0,
/// which is unused.
fn assert_written_as_read(image: &Image) {
    let bytes = image.bytes();
    let mut out = [UNTOUCHED; ROOM];
    let answer = rewrite(&bytes, &mut out);
    assert_eq!((answer.number, answer.busy), (0, 0));
    assert_eq!(written(answer.length, &out), bytes);
    assert_eq!(turned(&bytes, 0), (bytes.clone(), 0));
    assert_eq!(seen(&bytes, 15), bytes);
    assert_eq!(posted(&bytes, 0, 0, 700), (bytes, false));
}

/// The version 1 image that is left of a version 2 image without its clearances.
fn without_clearances(bytes: &[u8]) -> Vec<u8> {
    let head = 4 + usize::from(u16::from_be_bytes([bytes[1], bytes[2]]));
    let mut left = [&[1], &bytes[1..head]].concat();
    for slot in 0..SLOTS as u32 {
        let mut record = bytes[record(bytes, slot)].to_vec();
        if !record.is_empty() {
            record.remove(2);
        }
        left.extend((record.len() as u16).to_be_bytes());
        left.extend(record);
    }
    left
}

/// Live tasks of several labels that raise this label, send, poll, count and have children.
fn lively(raised: u8) -> Image {
    let program: [Instruction; 10] = [
        [0x0C, 2, 3, 0],
        [0x08, 4, 15, 2],
        [0x07, raised, 0, 0],
        [0x0A, 5, 6, 4],
        [0x0D, 7, 0, 0],
        [0x03, 4, 4, 3],
        [0x08, 4, 15, 7],
        [0x0B, 1, 0, 2],
        [0x06, 6, 0, 0],
        [0x05, 0, 0, 0],
    ];
    let mut lively = image(&program, &[]);
    for (slot, label, spare) in [(0, 0, 4), (5, 1, 0), (6, 5, 5), (12, 13, 3)] {
        let registers = [1, 2, 3, 4, 5, 6, 0, 8];
        lively.slots[slot] = Some(Task { label, spare, registers, mail: messages(20), ..Task::default() });
    }
    lively
}

/// How many turns are taken of lively images.
const TURNS: u64 = 400;

/// Until a raise leaves it, a clearance changes nothing; so version 1 is as version 2 with clearance 15.
#[test]
fn both_versions_take_the_same_turns_where_no_raise_leaves_the_clearance() {
    for (raised, clearance) in [(0, 15), (2, 15), (10, 15), (0, 13), (5, 13)] {
        let [mut first, mut second] = in_versions(&lively(raised));
        first.slots.iter_mut().flatten().for_each(|task| task.clearance = 0);
        second.slots.iter_mut().flatten().for_each(|task| task.clearance = clearance);
        for count in 0..TURNS {
            let ((first, first_busy), (second, second_busy)) =
                (turned(&first.bytes(), count), turned(&second.bytes(), count));
            assert_eq!(first_busy, second_busy);
            assert_eq!(without_clearances(&second), first);
            for slot in 0..SLOTS as u32 {
                let record = &second[record(&second, slot)];
                assert!(record.is_empty() || record[2] == clearance);
            }
        }
    }
}

#[test]
fn tasks_of_version_1_have_clearance_15_their_children_too() {
    let bytes = Image { version: 1, ..lively(2) }.bytes();
    let (mut image, _) = read::read(&bytes).expect("an accepted image");
    let tasks = image.tasks.iter().flatten().count();
    for _ in 0..TURNS {
        assert!(image.tasks.iter().flatten().all(|task| task.clearance == Clearance::ALL));
        step::run(&mut image, 1);
    }
    assert!(image.tasks.iter().flatten().count() > tasks);
}

#[test]
fn views_and_posts_keep_the_version() {
    for image in in_versions(&lively(2)) {
        let bytes = turned(&image.bytes(), 50).0;
        for observer in 0..16 {
            let view = seen(&bytes, observer);
            assert_eq!((view[0], check(&view)), (image.version, 0));
            for slot in 0..SLOTS {
                let (after, _) = posted(&bytes, slot, observer, 700);
                assert_eq!((after[0], check(&after)), (image.version, 0));
            }
        }
    }
}

#[test]
fn the_longest_images_are_printed() {
    for mut image in in_versions(&image(&[END; 256], &[])) {
        image.slots = [(); SLOTS].map(|()| Some(Task { mail: messages(64), ..Task::default() }));
        let bytes = image.bytes();
        let mut out = [UNTOUCHED; ROOM];
        let length = sheet(&bytes, 15, &mut out).length;
        assert_eq!(slotsheet(&[vec![15], bytes].concat()), out[..length]);
    }
}
