//! Wrong checks of versions, kinds and clearances.

use crate::found;
use differential::calls::{Implementation, REFERENCE};
use layout::records::{ranges, records};

/// A check in place of the right one is found.
fn check_found(check: fn(&[u8]) -> u8) {
    found(Implementation { name: "wrong", check, ..REFERENCE });
}

/// What a check tells that takes an image refused with this number for another one, and tells the number still if that is
/// refused too.
fn taking(image: &[u8], number: u8, other: impl Fn(&[u8]) -> Vec<u8>) -> u8 {
    match reference::check(image) {
        told if told == number && reference::check(&other(image)) == 0 => 0,
        told => told,
    }
}

/// The image with that first byte.
fn with_version(version: u8, image: &[u8]) -> Vec<u8> {
    [&[version], &image[1..]].concat()
}

#[test]
fn a_check_that_takes_version_0_for_1_or_3_for_2() {
    check_found(|image| taking(image, 4, |image| with_version(image[0] + u8::from(image[0] == 0), image)));
    check_found(|image| taking(image, 4, |image| with_version(image[0] - u8::from(image[0] == 3), image)));
}

#[test]
fn a_check_that_takes_the_records_of_either_version_for_the_other() {
    check_found(|image| taking(image, 8, |image| with_version(3 - image[0], image)));
}

#[test]
fn a_check_that_refuses_version_2() {
    check_found(|image| if image.first() == Some(&2) { 4 } else { reference::check(image) });
}

/// The image with its tasks mended, from their kinds on, if it is of that version.
fn mended(version: u8, image: &[u8], mend: fn(&mut [u8])) -> Vec<u8> {
    let mut mended = image.to_vec();
    if image[0] == version {
        ranges(image).filter(|range| range.len() > 2).for_each(|range| mend(&mut mended[range]));
    }
    mended
}

#[test]
fn a_check_that_accepts_kind_6_in_version_1_or_kind_7_in_version_2() {
    check_found(|image| taking(image, 9, |image| mended(1, image, |task| task[0] -= u8::from(task[0] == 6))));
    check_found(|image| taking(image, 9, |image| mended(2, image, |task| task[0] -= u8::from(task[0] == 7))));
}

#[test]
fn a_check_that_refuses_kind_6_in_version_2() {
    check_found(|image| match reference::check(image) {
        0 if records(image).any(|task| task.starts_with(&[6])) => 9,
        number => number,
    });
}

#[test]
fn a_check_that_accepts_a_clearance_above_15() {
    check_found(|image| taking(image, 9, |image| mended(2, image, |task| task[2] &= 15)));
}

#[test]
fn a_check_that_accepts_a_label_beyond_the_clearance() {
    check_found(|image| taking(image, 9, |image| mended(2, image, |task| task[2] |= task[1])));
}

#[test]
fn a_check_that_refuses_a_label_that_is_the_clearance() {
    check_found(|image| match reference::check(image) {
        0 if image[0] == 2 && records(image).any(|task| task.len() > 2 && task[1] == task[2]) => 9,
        number => number,
    });
}
