//! Images that are written in another version than their own.

use super::right;
use differential::calls::{Answer, Call};
use layout::next;
use layout::records::records;

/// The answer to a call that writes its image in another form; sheets and programs are written as they are.
pub fn written_as(call: Call, image: &[u8], out: &mut [u8], other: fn(&[u8]) -> Vec<u8>) -> Answer {
    let mut whole = vec![0; rithennaw::IMAGE_MAX];
    let answer = right(call, image, &mut whole);
    let writes_image = matches!(call, Call::Rewrite | Call::Turns(_) | Call::Post(_) | Call::View(_));
    if answer.number != 0 || !writes_image {
        return right(call, image, out);
    }
    let bytes = other(&whole[..answer.length]);
    match out.get_mut(..bytes.len()) {
        None => Answer::refused(13),
        Some(front) => {
            front.copy_from_slice(&bytes);
            Answer { length: bytes.len(), ..answer }
        }
    }
}

/// The image with that first byte, and each record as it is made into another.
pub fn with_records(version: u8, image: &[u8], other: impl Fn(&[u8]) -> Vec<u8>) -> Vec<u8> {
    let mut bytes = [&[version], &image[1..=next::turn_slot_at(image)]].concat();
    for record in records(image) {
        let record = if record.is_empty() { Vec::new() } else { other(record) };
        bytes.extend((record.len() as u16).to_be_bytes());
        bytes.extend(record);
    }
    bytes
}

/// The image in version 1, where version 2 has nothing to add to it.
pub fn narrowed(image: &[u8]) -> Vec<u8> {
    let plain = |record: &[u8]| matches!(record, [] | [1..=5, _, 15, ..]);
    if image[0] == 2 && records(image).all(plain) {
        with_records(1, image, |record| [&record[..2], &record[3..]].concat())
    } else {
        image.to_vec()
    }
}
