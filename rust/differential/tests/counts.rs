//! A run that compared nothing does not pass, and neither does one in which a call told a number that is not its own.

use differential::backlogs::BacklogTally;
use differential::calls::{Answer, Call, Post};
use differential::desk_report;
use differential::looks::LooksTally;
use differential::raises::RaiseTally;
use differential::report::Tally;
use differential::secrecy_report;
use differential::slotsheet::SlotsheetTally;

#[test]
fn a_run_without_calls_lacks_every_count() {
    // All calls, and nineteen facts; 0 and 3 to 13 for each of five calls that read an image and write, 2 for turns, 1 for
    // view and sheet, 14 and 15 for post; 0, 3 and 5 to 12 for checks of each version, 3 and 4 for others; 0, 5, 6 and 13
    // for assemble and disassemble, 16 for assemble; four outcomes of record and five of post.
    let image_calls = 5 * 12 + 1 + 2 + 2 + 2 * 10 + 2;
    assert_eq!(Tally::default().shortfalls().len(), 1 + 19 + image_calls + 2 * 4 + 1 + 4 + 5);
    // The observers 0 to 15 and the twenty facts; the same observers and twenty-nine facts.
    assert_eq!(secrecy_report::tally().shortfalls().len(), 16 + 20);
    assert_eq!(desk_report::tally().shortfalls().len(), 16 + 29);
    // The numbers 0 to 64, both versions, and counts beside other messages.
    assert_eq!(BacklogTally::default().shortfalls().len(), 65 + 2 + 1);
    // Raises that join in both versions, and others that stop.
    assert_eq!(RaiseTally::default().shortfalls().len(), 2 + 1);
    // Sheets of both versions, some with kind 6, and the refusals 1 and 3 to 12.
    assert_eq!(SlotsheetTally::default().shortfalls().len(), 2 + 1 + 11);
    // Room after 0 to 63 messages, the fourth after 4 to 64, unused slots, both versions and refused images.
    assert_eq!(LooksTally::default().shortfalls().len(), 64 + 61 + 1 + 2 + 1);
}

/// The numbers that are reported where they are told: those that never may be.
fn reported(tell: impl Fn(&mut Tally, u8)) -> Vec<u8> {
    let is_reported = |number: &u8| {
        let mut tally = Tally::default();
        tell(&mut tally, *number);
        tally.shortfalls().iter().any(|line| line.ends_with(&format!("told {number}, which it never may")))
    };
    (0..=16).filter(is_reported).collect()
}

/// The numbers that a call never may tell.
fn not_told(call: Call) -> Vec<u8> {
    reported(|tally, number| tally.call(call, Answer::refused(number)))
}

#[test]
fn each_call_has_numbers_of_its_own() {
    assert_eq!(not_told(Call::Rewrite), [1, 2, 14, 15, 16]);
    assert_eq!(not_told(Call::Turns(1)), [1, 14, 15, 16]);
    assert_eq!(not_told(Call::Post(Post { slot: 0, label: 0, value: 0 })), [1, 2, 16]);
    assert_eq!(not_told(Call::View(0)), [2, 14, 15, 16]);
    assert_eq!(not_told(Call::Sheet(0)), [2, 14, 15, 16]);
    assert_eq!(not_told(Call::Assemble), [1, 2, 3, 4, 7, 8, 9, 10, 11, 12, 14, 15]);
    assert_eq!(not_told(Call::Disassemble), [1, 2, 3, 4, 7, 8, 9, 10, 11, 12, 14, 15, 16]);
}

#[test]
fn only_images_of_no_version_have_number_4() {
    let not_checked = |image: &[u8]| reported(|tally, number| tally.check(image, number));
    assert_eq!(not_checked(&[1, 0]), [1, 2, 4, 13, 14, 15, 16]);
    assert_eq!(not_checked(&[2, 0]), [1, 2, 4, 13, 14, 15, 16]);
    for other in [&[][..], &[0, 1], &[3, 1], &[255, 2]] {
        assert_eq!(not_checked(other), [0, 1, 2, 5, 6, 7, 8, 9, 10, 11, 12, 13, 14, 15, 16]);
    }
}
