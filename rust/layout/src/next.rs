//! What comes next in the bytes of an accepted image of whichever version: whose turn, and which instruction.

use crate::place_at;

/// Where the program begins, behind the version and its length.
const PROGRAM_AT: usize = 3;

fn number(bytes: &[u8], at: usize) -> usize {
    usize::from(u16::from_be_bytes([bytes[at], bytes[at + 1]]))
}

/// Where the turn slot stands, right ahead of the slots.
pub fn turn_slot_at(image: &[u8]) -> usize {
    PROGRAM_AT + number(image, 1)
}

/// The turn slot.
pub fn turn_slot(image: &[u8]) -> u8 {
    image[turn_slot_at(image)]
}

/// Where the next instruction of the task with that record stands in the image; none where its place is behind the last.
pub fn instruction_at(image: &[u8], record: &[u8]) -> Option<usize> {
    let offset = 4 * number(record, place_at(image[0]));
    (offset < number(image, 1)).then_some(PROGRAM_AT + offset)
}

#[cfg(test)]
mod tests {
    use super::{instruction_at, turn_slot};
    use crate::{Image, Task, VERSIONS};

    #[test]
    fn the_turn_slot_and_the_next_instruction_are_found() {
        for version in VERSIONS {
            let mut image = Image { version, ..Image::new(vec![[2, 0, 0, 0], [1, 7, 1, 44]]) };
            image.turn_slot = 9;
            let [first, last, behind] = [0, 1, 2].map(|place| Task { place, ..Task::default() }.record(version));
            let bytes = image.bytes();
            assert_eq!(turn_slot(&bytes), 9);
            assert_eq!(instruction_at(&bytes, &first).map(|at| bytes[at]), Some(2));
            assert_eq!(instruction_at(&bytes, &last).map(|at| &bytes[at..at + 4]), Some(&[1, 7, 1, 44][..]));
            assert_eq!(instruction_at(&bytes, &behind), None);
        }
    }
}
