//! Wrong clearances and versions, each wrong in one thing, are found too.

mod checks;

use crate::wrong::turning::{one_turn, turn_by_turn, Turning};
use crate::wrong::versions::{narrowed, with_records, written_as};
use crate::wrong::{right, wrong};
use crate::{difference, difference_in, found};
use differential::calls::{Answer, Call, Implementation, MONITOR};
use differential::compare::Comparison;
use differential::raises::{self, RaiseTally};
use differential::report::Outcome;
use layout::instructions::{RAISE, SANDBOX};
use layout::next;
use layout::records::{ranges, records};

/// The raises of the image of that number.
fn raises(comparison: &mut Comparison, seed: u64) -> Outcome {
    raises::run(comparison, &mut RaiseTally::default(), seed as usize)
}

/// It is found, and so are two that are wrong alike, since a raise does not do what it should.
fn raise_found(wrong: Implementation) {
    found(wrong);
    let report = difference_in(raises, [wrong, wrong]).expect("a difference");
    assert!(report.starts_with("a raise does not do what it should"), "{report}");
}

/// Turns that leave a task which its clearance has stopped in another state. `change` gets its record and the label that
/// it was to be raised by: it stands at its raise still.
fn stopped_otherwise(call: Call, image: &[u8], out: &mut [u8], change: fn(&mut [u8], u8)) -> Answer {
    let answer = right(call, image, out);
    if !matches!(call, Call::Turns(_)) || answer.number != 0 {
        return answer;
    }
    let tasks: Vec<_> = records(image).zip(ranges(&out[..answer.length])).collect();
    for (before, range) in tasks {
        if out[range.clone()].starts_with(&[6]) && !before.starts_with(&[6]) {
            let by = next::instruction_at(out, &out[range.clone()]).map_or(0, |at| out[at + 1]);
            change(&mut out[range], by);
        }
    }
    answer
}

#[test]
fn what_they_are_made_of_changes_nothing_by_itself() {
    let stopped = wrong(|call, image, out| stopped_otherwise(call, image, out, |_, _| ()));
    let turned = wrong(|call, image, out| turn_by_turn(call, image, out, RAISE, |_, image| one_turn(image)));
    let written =
        wrong(|call, image, out| written_as(call, image, out, |image| with_records(image[0], image, <[u8]>::to_vec)));
    for right in [stopped, turned, written] {
        assert_eq!(difference([MONITOR, right]), None);
        assert_eq!(difference_in(raises, [MONITOR, right]), None);
    }
}

#[test]
fn a_raise_that_stops_with_kind_4() {
    raise_found(wrong(|call, image, out| stopped_otherwise(call, image, out, |task, _| task[0] = 4)));
}

#[test]
fn a_raise_that_changes_the_label_and_then_stops() {
    raise_found(wrong(|call, image, out| stopped_otherwise(call, image, out, |task, by| task[1] |= by)));
    // As far as the clearance admits it, so that the image is accepted.
    raise_found(wrong(|call, image, out| stopped_otherwise(call, image, out, |task, by| task[1] |= by & task[2])));
}

#[test]
fn a_raise_that_stops_behind_its_place() {
    raise_found(wrong(|call, image, out| {
        stopped_otherwise(call, image, out, |task, _| {
            let place = u16::from_be_bytes([task[4], task[5]]) + 1;
            task[4..6].copy_from_slice(&place.to_be_bytes());
        })
    }));
}

/// A raise that is made whatever the clearance, which grows with the label.
fn raise_both(turning: &Turning, image: &[u8]) -> Vec<u8> {
    let mut lifted = image.to_vec();
    if image[0] == 2 {
        lifted[reference::record(image, turning.slot)][2] |= image[turning.at + 1];
    }
    one_turn(&lifted)
}

/// A raise that stops every task whose label it would change, with a kind that the version has.
fn raise_none(turning: &Turning, image: &[u8]) -> Vec<u8> {
    let mut after = one_turn(image);
    let task = reference::record(image, turning.slot);
    if image[task.start + 1] != after[task.start + 1] {
        after[task.clone()].copy_from_slice(&image[task.clone()]);
        after[task.start] = if image[0] == 1 { 4 } else { 6 };
    }
    after
}

#[test]
fn a_raise_that_lifts_the_clearance_or_stops_within_it() {
    raise_found(wrong(|call, image, out| turn_by_turn(call, image, out, RAISE, raise_both)));
    raise_found(wrong(|call, image, out| turn_by_turn(call, image, out, RAISE, raise_none)));
}

/// A turn in which a new task gets another clearance than its parent's.
fn child_with(image: &[u8], clearance: fn(&[u8]) -> u8) -> Vec<u8> {
    let mut after = one_turn(image);
    let made = records(image).zip(ranges(&after)).find(|(before, range)| before.is_empty() && !range.is_empty());
    if let (2, Some((_, range))) = (image[0], made) {
        let task = &mut after[range];
        task[2] = clearance(task);
    }
    after
}

#[test]
fn a_child_with_clearance_15_or_that_of_its_label() {
    raise_found(wrong(|call, image, out| {
        turn_by_turn(call, image, out, SANDBOX, |_, image| child_with(image, |_| 15))
    }));
    raise_found(wrong(|call, image, out| {
        turn_by_turn(call, image, out, SANDBOX, |_, image| child_with(image, |child| child[1]))
    }));
}

/// An accepted image with tasks of that kind in place of those of kind 6; any other image as it is.
fn with_kind_6_as(kind: u8, image: &[u8]) -> Vec<u8> {
    let mut other = image.to_vec();
    if reference::check(image) == 0 {
        let stopped = ranges(image).filter(|range| image[range.clone()].starts_with(&[6]));
        stopped.for_each(|range| other[range.start] = kind);
    }
    other
}

#[test]
fn tasks_stopped_by_their_clearance_that_run_again() {
    found(wrong(|call, image, out| match call {
        Call::Turns(_) => right(call, &with_kind_6_as(1, image), out),
        _ => right(call, image, out),
    }));
}

#[test]
fn a_sheet_that_has_kind_4_for_kind_6() {
    found(wrong(|call, image, out| match call {
        Call::Sheet(_) => right(call, &with_kind_6_as(4, image), out),
        _ => right(call, image, out),
    }));
}

#[test]
fn version_1_written_as_version_2() {
    found(wrong(|call, image, out| written_as(call, image, out, widened)));
}

/// The image in version 2.
fn widened(image: &[u8]) -> Vec<u8> {
    match image[0] {
        1 => with_records(2, image, |record| [&record[..2], &[15], &record[2..]].concat()),
        _ => image.to_vec(),
    }
}

#[test]
fn version_2_written_as_version_1_where_it_adds_nothing() {
    found(wrong(|call, image, out| written_as(call, image, out, narrowed)));
}

/// The image without its clearances, where there are some.
fn unlimited(image: &[u8]) -> Vec<u8> {
    match image[0] {
        2 => with_records(2, image, |record| [&record[..2], &[15], &record[3..]].concat()),
        _ => image.to_vec(),
    }
}

#[test]
fn a_view_that_drops_the_clearance() {
    found(wrong(|call, image, out| match call {
        Call::View(_) => written_as(call, image, out, unlimited),
        _ => right(call, image, out),
    }));
}
