//! The calls: records, writing again, views, sheets and the program `slotsheet`.

use super::{b, bytes_in_versions, image, in_versions, mail, written, END, ROOM, UNTOUCHED};
use crate::{record, rewrite, sheet, slotsheet, turns, view};
use layout::{Image, Message, Task, SLOTS};

/// Tasks of the labels 0, 1, 3 and 15, each with mail of several labels.
fn mixed() -> Image {
    let mail = mail([(0, 1, 10), (1, 2, 20), (2, 3, 30), (0, 16, 40)]);
    let mut mixed = image(&[END, END], &[]);
    for (slot, label, spare) in [(0, 0, 1), (2, 1, 0), (7, 3, 3), (15, 15, 0)] {
        mixed.slots[slot] = Some(Task { label, spare, mail: mail.clone(), ..Task::default() });
    }
    mixed
}

/// What the view for this label leaves of an image.
pub(super) fn seen(mut image: Image, observer: u8) -> Image {
    for slot in &mut image.slots {
        *slot = slot.take().filter(|task| task.label | observer == observer);
    }
    for task in image.slots.iter_mut().flatten() {
        task.mail.retain(|message| message.label | observer == observer);
    }
    image
}

#[test]
fn a_record_is_the_part_of_the_image_that_holds_it() {
    for image in in_versions(&mixed()) {
        let bytes = image.bytes();
        for (slot, task) in (0..).zip(&image.slots) {
            let range = record(&bytes, slot);
            match task {
                Some(task) => assert_eq!(bytes[range], task.record(image.version)),
                None => assert_eq!(range, 0..0),
            }
        }
        assert!([16, 17, u32::MAX].iter().all(|&slot| record(&bytes, slot) == (0..0)));
    }
}

#[test]
fn an_image_is_written_again_as_it_was_read() {
    for bytes in [b(), mixed(), image(&[END], &[])].iter().flat_map(bytes_in_versions) {
        let mut out = [UNTOUCHED; ROOM];
        let answer = rewrite(&bytes, &mut out);
        assert_eq!((answer.number, answer.busy), (0, 0));
        assert_eq!(written(answer.length, &out), bytes);
    }
}

#[test]
fn the_shortest_image_has_40_bytes_and_the_longest_7796_and_7812() {
    let mail: Vec<_> = (0..64).map(|index| Message { label: index % 16, sender: 16, value: 0 }).collect();
    let mut longest = image(&[END; 256], &[]);
    longest.slots = [(); SLOTS].map(|()| Some(Task { mail: mail.clone(), ..Task::default() }));
    for (image, lengths) in [(image(&[END], &[]), [40, 40]), (longest, [7796, 7812])] {
        for (bytes, length) in bytes_in_versions(&image).iter().zip(lengths) {
            let mut out = [0; ROOM];
            assert_eq!(rewrite(bytes, &mut out).length, length);
            assert_eq!(turns(bytes, 0, &mut out).length, length);
        }
    }
}

#[test]
fn a_view_leaves_out_what_does_not_flow_to_the_observer() {
    for mixed in in_versions(&mixed()) {
        let bytes = mixed.bytes();
        for observer in 0..16 {
            let mut out = [UNTOUCHED; ROOM];
            let answer = view(&bytes, observer.into(), &mut out);
            assert_eq!((answer.number, answer.busy), (0, 0));
            assert_eq!(written(answer.length, &out), seen(mixed.clone(), observer).bytes());
        }
        assert_eq!(seen(mixed.clone(), 15).bytes(), bytes);
        assert_ne!(seen(mixed, 3).bytes(), bytes);
    }
}

#[test]
fn a_sheet_has_a_line_for_each_used_slot_of_the_view() {
    let lines = ["0 1 0 1 0 3\n", "2 1 1 0 0 3\n"];
    let expected = format!("slot kind label spare pc mail\n{}", lines.concat());
    for bytes in bytes_in_versions(&mixed()) {
        let mut out = [UNTOUCHED; ROOM];
        let answer = sheet(&bytes, 1, &mut out);
        assert_eq!((answer.number, answer.busy), (0, 0));
        assert_eq!(written(answer.length, &out), expected.as_bytes());
        assert_eq!(slotsheet(&[vec![1], bytes].concat()), expected.as_bytes());
    }
}

#[test]
fn slotsheet_prints_refusals() {
    let b = b().bytes();
    let filled = |length: usize| [vec![0], b.clone(), vec![0; length - 1 - b.len()]].concat();
    let refused = [
        (vec![], 3),
        (vec![15], 3),
        (vec![16], 1),
        (vec![0, 3], 4),
        (filled(8192), 11),
        (vec![16; 8192], 1),
        (vec![16; 8193], 11),
    ];
    for (input, number) in refused {
        assert_eq!(slotsheet(&input), format!("refused {number}\n").as_bytes());
    }
}
