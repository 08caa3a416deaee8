//! One image for each number and the order in which they are given.

use super::{after, b, bytes_in_versions, image, in_versions, judged_instructions, kinds, mail, END, ROOM, UNTOUCHED};
use crate::{check, looks, post, record, rewrite, sheet, turns, view, Answer, PostAnswer};
use layout::{task_length, Image, Task, VERSIONS};

/// What a refused call tells.
fn refused(number: u8) -> Answer {
    Answer { number, length: 0, busy: 0 }
}

/// What a refused post tells.
fn post_refused(number: u8) -> PostAnswer {
    PostAnswer { number, length: 0, delivered: false }
}

/// Every call that reads this image refuses it with this number and writes nothing.
pub(super) fn assert_refused(bytes: &[u8], number: u8) {
    assert_eq!(check(bytes), number);
    let expected = refused(number);
    let mut out = [UNTOUCHED; ROOM];
    assert_eq!(rewrite(bytes, &mut out), expected);
    assert_eq!(turns(bytes, 3, &mut out), expected);
    assert_eq!(view(bytes, 15, &mut out), expected);
    assert_eq!(sheet(bytes, 15, &mut out), expected);
    assert_eq!(post(bytes, 5, 0, 0, &mut out), post_refused(number));
    assert!(out.iter().all(|&byte| byte == UNTOUCHED));
    assert!((0..17).all(|slot| record(bytes, slot) == (0..0)));
    assert!(looks(bytes).is_empty());
}

/// The image is refused with this number in each version.
fn assert_image_refused(image: &Image, number: u8) {
    bytes_in_versions(image).iter().for_each(|bytes| assert_refused(bytes, number));
}

/// B with a change to its task in slot 5.
fn b_with(change: fn(&mut Task)) -> Image {
    let mut image = b();
    change(image.task(5));
    image
}

#[test]
fn short_images_are_3_wherever_they_are_cut() {
    let mut image = b();
    image.task(5).mail = mail([(0, 0, 1); 4]);
    for bytes in bytes_in_versions(&image) {
        for length in 0..bytes.len() {
            assert_refused(&bytes[..length], 3);
        }
    }
}

#[test]
fn other_versions_are_4() {
    for byte in (0..=255).filter(|byte| !VERSIONS.contains(byte)) {
        assert_image_refused(&Image { first_byte: Some(byte), ..b() }, 4);
    }
}

#[test]
fn program_lengths_outside_the_rule_are_5() {
    for length in [0, 1, 3, 5, 6, 7, 1022, 1025, 1028, 65535] {
        assert_image_refused(&Image { program_length: Some(length), cut: Some(3), ..b() }, 5);
    }
}

#[test]
fn instructions_outside_the_table_are_6_and_others_accepted() {
    for (instruction, number) in judged_instructions() {
        for bytes in bytes_in_versions(&image(&[END, instruction], &[])) {
            assert_eq!(check(&bytes), number, "{instruction:?}");
        }
    }
}

#[test]
fn codes_behind_the_table_are_6() {
    for code in 14..=255 {
        assert_image_refused(&image(&[END, [code, 0, 0, 0]], &[]), 6);
    }
}

#[test]
fn turn_slots_above_15_are_7() {
    for turn_slot in [16, 255] {
        assert_image_refused(&Image { turn_slot, ..b() }, 7);
    }
}

#[test]
fn record_lengths_outside_the_rule_are_8() {
    for length in [1u16, 6, 36, 38, 42, 44, 420, 422, 427, 65535] {
        let mut bytes = image(&[END], &[]).head();
        bytes.extend(length.to_be_bytes());
        assert_refused(&bytes, 8);
    }
}

#[test]
fn task_fields_out_of_range_are_9() {
    let changes: [fn(&mut Task); 6] = [
        |task| task.kind = 0,
        |task| task.kind = 7,
        |task| task.label = 16,
        |task| task.place = 5,
        |task| task.place = 256,
        |task| task.spare = 11,
    ];
    for change in changes {
        assert_image_refused(&b_with(change), 9);
    }
    assert_image_refused(&b_with(|task| task.spare = 255), 9);
}

#[test]
fn mail_out_of_range_is_10() {
    let changes: [fn(&mut Task); 3] = [
        |task| task.mail = mail([(16, 0, 0)]),
        |task| task.mail = mail([(0, 17, 0)]),
        |task| task.mail = mail([(1, 0, 0), (1, 0, 0), (2, 0, 0), (1, 0, 0), (1, 0, 0), (1, 0, 0)]),
    ];
    for change in changes {
        assert_image_refused(&b_with(change), 10);
    }
}

#[test]
fn senders_up_to_16_are_accepted_and_others_are_10() {
    for sender in 0..=255 {
        let mut image = b();
        image.task(5).mail = mail([(0, sender, 0)]);
        let number = if sender <= 16 { 0 } else { 10 };
        assert_eq!(bytes_in_versions(&image).map(|bytes| check(&bytes)), [number; VERSIONS.len()]);
    }
}

#[test]
fn bytes_behind_slot_15_are_11() {
    assert_image_refused(&Image { tail: vec![0], ..b() }, 11);
}

#[test]
fn a_used_slot_in_the_spare_of_a_stopped_task_is_12() {
    for mut image in in_versions(&image(&[END], &[3, 5])) {
        for kind in kinds(image.version) {
            (image.task(3).kind, image.task(3).spare) = (kind, 2);
            assert_refused(&image.bytes(), 12);
        }
    }
}

#[test]
fn an_output_shorter_than_the_answer_is_13() {
    for b in in_versions(&b()) {
        let bytes = b.bytes();
        let (after, _) = after(&b, 1);
        assert!(after.len() > bytes.len());
        let mut out = vec![UNTOUCHED; after.len() - 1];
        let expected = refused(13);
        assert_eq!(turns(&bytes, 1, &mut out), expected);
        assert_eq!(rewrite(&bytes, &mut out[..bytes.len() - 1]), expected);
        assert_eq!(view(&bytes, 0, &mut out[..bytes.len() - 1]), expected);
        assert_eq!(sheet(&bytes, 0, &mut out[..53]), expected);
        assert!(out.iter().all(|&byte| byte == UNTOUCHED));
        assert_eq!(rewrite(&bytes, &mut out[..bytes.len()]).number, 0);
        assert_eq!(sheet(&bytes, 0, &mut out[..54]).number, 0);
    }
}

#[test]
fn arguments_come_ahead_of_the_image() {
    assert_eq!(view(&[], 16, &mut []).number, 1);
    assert_eq!(sheet(&[], u32::MAX, &mut []).number, 1);
    assert_eq!(turns(&[], 1_000_001, &mut []).number, 2);
    assert_eq!(turns(&[], u64::MAX, &mut []).number, 2);
}

#[test]
fn the_slot_of_a_post_comes_ahead_of_its_label_and_the_label_ahead_of_the_image() {
    let accepted = b().bytes();
    let mut out = [UNTOUCHED; ROOM];
    for above in [16, 17, 256 + 5, 65536 + 5, u32::MAX] {
        for bytes in [&accepted[..], &[3], &[]] {
            for room in [0, ROOM] {
                assert_eq!(post(bytes, above, 0, 0, &mut out[..room]), post_refused(14));
                assert_eq!(post(bytes, above, above, 0, &mut out[..room]), post_refused(14));
                assert_eq!(post(bytes, 15, above, 0, &mut out[..room]), post_refused(15));
            }
        }
    }
    assert!(out.iter().all(|&byte| byte == UNTOUCHED));
    assert_eq!(post(&[3], 15, 15, 0, &mut []), post_refused(4));
    assert_eq!(post(&[], 15, 15, 0, &mut []), post_refused(3));
    assert_eq!(post(&accepted, 15, 15, 0, &mut []), post_refused(13));
    assert_eq!(post(&accepted, 15, 15, 0, &mut out).number, 0);
}

/// Each image of this version has two or more faults; the first in document 01's order is given.
fn assert_first_fault_given(version: u8) {
    let in_version = |image: Image| Image { version, ..image };
    let head = in_version(image(&[END], &[])).head();
    let wrong_code = in_version(image(&[[14, 0, 0, 0], END], &[])).bytes();
    let length = task_length(version) as u8;
    let faulty_task = |change: fn(&mut Task)| {
        let mut image = in_version(image(&[END], &[14, 15]));
        image.task(15).label = 16;
        change(image.task(14));
        image.bytes()
    };
    let cut_record = |change: fn(&mut Task)| {
        let bytes = faulty_task(change);
        bytes[..bytes.len() - usize::from(length) - 3].to_vec()
    };
    let ordered = [
        (vec![version, 0], 3),
        (vec![version, 0, 5], 5),
        (wrong_code[..10].to_vec(), 3),
        (wrong_code[..11].to_vec(), 6),
        (head[..7].to_vec(), 3),
        ([&head[..7], &[16]].concat(), 7),
        ([&head[..], &[0]].concat(), 3),
        ([&head[..], &[0, length - 1]].concat(), 8),
        ([&head[..], &[0, length, 0]].concat(), 3),
        (cut_record(|task| task.kind = 0), 3),
        (faulty_task(|task| task.mail = mail([(16, 0, 0)])), 10),
        (faulty_task(|task| (task.kind, task.mail) = (0, mail([(16, 0, 0)]))), 9),
        ([faulty_task(|task| task.spare = 1), vec![0]].concat(), 9),
    ];
    for (bytes, number) in ordered {
        assert_refused(&bytes, number);
    }
}

#[test]
fn the_first_fault_is_given() {
    assert_refused(&[3], 4);
    VERSIONS.into_iter().for_each(assert_first_fault_given);
}

#[test]
fn tail_comes_ahead_of_estate_and_estate_ahead_of_output() {
    for mut image in in_versions(&image(&[END], &[3, 5])) {
        image.task(3).spare = 2;
        assert_eq!(rewrite(&image.bytes(), &mut []).number, 12);
        image.tail = vec![0];
        assert_refused(&image.bytes(), 11);
    }
    for bytes in bytes_in_versions(&b()) {
        assert_eq!(rewrite(&bytes, &mut []).number, 13);
        assert_eq!(check(&bytes), 0);
    }
}
