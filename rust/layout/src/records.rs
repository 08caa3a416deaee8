//! The records in the bytes of an image, found by the lengths ahead of them.

use crate::{next, task_length, MESSAGE_LENGTH, SLOTS};
use std::ops::Range;

/// Where the records of an image stand, slot by slot, up to one that it does not hold whole; that of an unused slot is
/// empty. The lengths may be those of any version: nothing in a record is judged.
pub fn ranges(image: &[u8]) -> impl Iterator<Item = Range<usize>> + '_ {
    let mut at = next::turn_slot_at(image) + 1;
    (0..SLOTS).map_while(move |_| {
        let start = at + 2;
        let length = *image.get(at..start)?.first_chunk()?;
        at = start + usize::from(u16::from_be_bytes(length));
        (at <= image.len()).then_some(start..at)
    })
}

/// The records themselves.
pub fn records(image: &[u8]) -> impl Iterator<Item = &[u8]> {
    ranges(image).map(|range| &image[range])
}

/// The messages of a record of this version; that of an unused slot has none.
pub fn messages(version: u8, record: &[u8]) -> impl Iterator<Item = &[u8]> {
    record.get(task_length(version)..).unwrap_or_default().chunks(MESSAGE_LENGTH)
}

#[cfg(test)]
mod tests {
    use super::{messages, ranges, records};
    use crate::{Image, Message, Task, SLOTS, VERSIONS};

    /// An image with tasks in two slots, the first of which has mail.
    fn image(version: u8) -> Image {
        let mut image = Image { version, ..Image::new(vec![[0; 4]; 3]) };
        image.slots[3] =
            Some(Task { label: 2, mail: vec![Message { label: 1, sender: 2, value: 3 }], ..Task::default() });
        image.slots[15] = Some(Task { place: 1, ..Task::default() });
        image
    }

    #[test]
    fn every_slot_has_its_record() {
        for version in VERSIONS {
            let image = image(version);
            let bytes = image.bytes();
            let expected = image.slots.iter().map(|task| task.as_ref().map_or(Vec::new(), |task| task.record(version)));
            assert_eq!(records(&bytes).collect::<Vec<_>>(), expected.collect::<Vec<_>>());
            assert_eq!(ranges(&bytes).last().map(|range| range.end), Some(bytes.len()));
        }
    }

    #[test]
    fn messages_stand_behind_the_task() {
        for version in VERSIONS {
            let bytes = image(version).bytes();
            let mail: Vec<Vec<&[u8]>> = records(&bytes).map(|record| messages(version, record).collect()).collect();
            assert_eq!(mail[3], [[1, 2, 0, 0, 0, 3]]);
            assert!(mail[15].is_empty() && mail[0].is_empty());
        }
    }

    #[test]
    fn records_end_where_the_bytes_do() {
        let bytes = image(2).bytes();
        let ends: Vec<usize> = ranges(&bytes).map(|range| range.end).collect();
        assert_eq!(ends.len(), SLOTS);
        for (whole, end) in (1..).zip(ends) {
            assert_eq!(records(&bytes[..end]).count(), whole);
            assert_eq!(records(&bytes[..end - 1]).count(), whole - 1);
        }
    }
}
