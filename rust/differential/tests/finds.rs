//! Wrong implementations, each wrong in one thing, are found by comparing calls.

mod ceilings;
mod texts;
mod wrong;

use differential::backlogs::{self, BacklogTally};
use differential::calls::{Answer, Call, Implementation, Post, MONITOR, REFERENCE};
use differential::cases;
use differential::compare::Comparison;
use differential::report::Outcome;
use layout::instructions::{COUNT, TAKE};
use layout::{place_at, task_length, MESSAGE_LENGTH};
use rithennaw::IMAGE_MIN;
use wrong::counting::all_counted;
use wrong::turning::{one_turn, turn_by_turn, Turning};
use wrong::{common_limit, post_and_turn, right, wrong, SEEDS};

/// What is compared for a seed.
type Cases = fn(&mut Comparison, u64) -> Outcome;

/// The first difference in these cases, as it is reported.
fn difference_in(cases: Cases, implementations: [Implementation; 2]) -> Option<String> {
    let mut comparison = Comparison::new(implementations);
    (0..SEEDS).find_map(|seed| cases(&mut comparison, seed).err()).map(|mismatch| mismatch.to_string())
}

fn found_in(cases: Cases, wrong: Implementation) {
    let report = difference_in(cases, [MONITOR, wrong]).expect("a difference");
    for part in ["seed ", "\ncall ", "\ninput ", "\nmonitor: ", "\nwrong: "] {
        assert!(report.contains(part), "no {part:?} in {report}");
    }
}

fn difference(implementations: [Implementation; 2]) -> Option<String> {
    difference_in(cases::run, implementations)
}

fn found(wrong: Implementation) {
    found_in(cases::run, wrong);
}

#[test]
fn right_ones_do_not_differ() {
    assert_eq!(difference([MONITOR, REFERENCE]), None);
}

#[test]
fn a_busy_count_of_one_more() {
    found(wrong(|call, image, out| {
        let answer = right(call, image, out);
        Answer { busy: answer.busy + u64::from(answer.busy > 100), ..answer }
    }));
}

#[test]
fn a_length_of_a_refused_call() {
    found(wrong(|call, image, out| {
        let answer = right(call, image, out);
        Answer { length: if answer.number == 13 { 1 } else { answer.length }, ..answer }
    }));
}

#[test]
fn a_byte_behind_the_answer() {
    found(wrong(|call, image, out| {
        let answer = right(call, image, out);
        out.iter_mut().skip(answer.length.max(1)).take(1).for_each(|byte| *byte ^= 1);
        answer
    }));
}

#[test]
fn a_byte_that_a_refused_call_writes() {
    found(wrong(|call, image, out| {
        let answer = right(call, image, out);
        out.iter_mut().take(usize::from(answer.number != 0)).for_each(|byte| *byte ^= 1);
        answer
    }));
}

#[test]
fn a_byte_that_both_write_behind_the_answer() {
    let both = wrong(|call, image, out| {
        let answer = right(call, image, out);
        out.iter_mut().skip(answer.length).take(1).for_each(|byte| *byte ^= 1);
        answer
    });
    let report = difference([both, both]).expect("a difference");
    assert!(report.starts_with("bytes outside the answer have changed"), "{report}");
}

#[test]
fn an_accepted_image_that_both_refuse() {
    let both = wrong(|_, _, _| Answer::refused(3));
    let report = difference([both, both]).expect("a difference");
    assert!(report.starts_with("an accepted image is not given back"), "{report}");
}

/// A check that accepts the images that are refused with that number.
fn accepting<const NUMBER: u8>(image: &[u8]) -> u8 {
    let number = reference::check(image);
    if number == NUMBER {
        0
    } else {
        number
    }
}

#[test]
fn a_check_that_accepts_what_one_rule_refuses() {
    let first: [fn(&[u8]) -> u8; 5] = [accepting::<3>, accepting::<4>, accepting::<5>, accepting::<6>, accepting::<7>];
    let rest: [fn(&[u8]) -> u8; 5] =
        [accepting::<8>, accepting::<9>, accepting::<10>, accepting::<11>, accepting::<12>];
    for check in first.into_iter().chain(rest) {
        found(Implementation { name: "wrong", check, ..REFERENCE });
    }
}

#[test]
fn a_check_that_refuses_the_shortest_image() {
    let check = |image: &[u8]| if image.len() == IMAGE_MIN { 3 } else { reference::check(image) };
    let wrong = Implementation { name: "wrong", check, ..REFERENCE };
    found(wrong);
    let report = difference([wrong, wrong]).expect("a difference");
    assert!(report.starts_with("an accepted image is refused"), "{report}");
}

#[test]
fn a_record_that_starts_elsewhere() {
    found(Implementation {
        name: "wrong",
        record: |image, slot| {
            let part = reference::record(image, slot);
            if part.is_empty() {
                part
            } else {
                part.start - 2..part.end
            }
        },
        ..REFERENCE
    });
}

#[test]
fn a_post_with_sender_15() {
    found(wrong(|call, image, out| {
        let answer = right(call, image, out);
        if let (Call::Post(post), true) = (call, answer.delivered) {
            let behind = reference::record(&out[..answer.length], post.slot).end;
            out[behind - MESSAGE_LENGTH + 1] = 15;
        }
        answer
    }));
}

#[test]
fn a_post_ahead_of_the_other_messages() {
    found(wrong(|call, image, out| {
        let answer = right(call, image, out);
        if let (Call::Post(post), true) = (call, answer.delivered) {
            let record = reference::record(&out[..answer.length], post.slot);
            out[record][task_length(image[0])..].rotate_right(MESSAGE_LENGTH);
        }
        answer
    }));
}

/// Posts into tasks of that kind as if they were live.
fn post_into<const KIND: u8>() -> Implementation {
    wrong(|call, image, out| match call {
        Call::Post(post) if image[reference::record(image, post.slot)].starts_with(&[KIND]) => {
            // A live task, for as long as the post takes.
            let at = reference::record(image, post.slot).start;
            let mut live = image.to_vec();
            live[at] = 1;
            let answer = right(call, &live, out);
            out[..answer.length].iter_mut().skip(at).take(1).for_each(|kind| *kind = KIND);
            answer
        }
        _ => right(call, image, out),
    })
}

#[test]
fn a_post_into_a_stopped_task() {
    for wrong in [post_into::<2>(), post_into::<3>(), post_into::<4>(), post_into::<5>(), post_into::<6>()] {
        found(wrong);
    }
}

#[test]
fn a_post_dropped_where_the_task_may_not_receive_it() {
    found(wrong(|call, image, out| match call {
        Call::Post(post) if post.label <= 15 => {
            let record = &image[reference::record(image, post.slot)];
            let admitted = record.get(1).map_or(true, |&label| post.label & !u32::from(label) == 0);
            right(if admitted { call } else { Call::Rewrite }, image, out)
        }
        _ => right(call, image, out),
    }));
}

#[test]
fn a_full_mailbox_counted_over_all_labels() {
    found(common_limit());
}

#[test]
fn a_post_that_runs_a_turn() {
    found(post_and_turn());
}

/// The counts of the image of that number.
fn counts(comparison: &mut Comparison, seed: u64) -> Outcome {
    backlogs::run(comparison, &mut BacklogTally::default(), seed as usize)
}

/// A turn that counts and takes the oldest receivable message away.
fn count_and_take(turning: &Turning, image: &[u8]) -> Vec<u8> {
    let counted = one_turn(image);
    let register = image[turning.at + 1];
    let mut taking = image.to_vec();
    taking[turning.at..][..3].copy_from_slice(&[TAKE, register, register]);
    let mut took = one_turn(&taking);
    took[turning.at..][..4].copy_from_slice(&image[turning.at..][..4]);
    let [from, to] = [&counted, &took].map(|image| reference::record(image, turning.slot).start);
    let figures = place_at(image[0])..task_length(image[0]);
    took[to..][figures.clone()].copy_from_slice(&counted[from..][figures]);
    took
}

#[test]
fn a_count_of_all_messages_or_one_that_takes_one_away() {
    let takes_one = wrong(|call, image, out| turn_by_turn(call, image, out, COUNT, count_and_take));
    for wrong in [all_counted(), takes_one] {
        found(wrong);
        let report = difference_in(counts, [wrong, wrong]).expect("a difference");
        assert!(report.starts_with("a count is not how many are receivable"), "{report}");
    }
}

#[test]
fn delivered_told_of_a_message_that_was_dropped() {
    let wrong = wrong(|call, image, out| {
        let answer = right(call, image, out);
        Answer { delivered: matches!(call, Call::Post(_)) && answer.number == 0, ..answer }
    });
    found(wrong);
    let report = difference([wrong, wrong]).expect("a difference");
    assert!(report.starts_with("a message is delivered or dropped without cause"), "{report}");
}

#[test]
fn dropped_told_of_a_message_that_was_delivered() {
    found(wrong(|call, image, out| Answer { delivered: false, ..right(call, image, out) }));
}

#[test]
fn delivered_told_of_a_refused_post() {
    let wrong = wrong(|call, image, out| match right(call, image, out) {
        answer if matches!(call, Call::Post(_)) && answer.number == 13 => Answer { delivered: true, ..answer },
        answer => answer,
    });
    found(wrong);
    let report = difference([wrong, wrong]).expect("a difference");
    assert!(report.starts_with("a refused call tells"), "{report}");
}

/// Cuts the arguments of a post to these bits.
fn cut<const SLOT: u32, const LABEL: u32, const VALUE: u32>() -> Implementation {
    wrong(|call, image, out| match call {
        Call::Post(Post { slot, label, value }) => {
            let post = Post { slot: slot & SLOT, label: label & LABEL, value: value & VALUE };
            right(Call::Post(post), image, out)
        }
        _ => right(call, image, out),
    })
}

#[test]
fn a_post_whose_arguments_are_cut() {
    const ALL: u32 = u32::MAX;
    found(cut::<0xffff, ALL, ALL>());
    found(cut::<0xff, ALL, ALL>());
    found(cut::<ALL, 0xffff, ALL>());
    found(cut::<ALL, 0xff, ALL>());
    found(cut::<ALL, ALL, 0x7fff_ffff>());
    found(cut::<ALL, ALL, 0xffff_0000>());
}

#[test]
fn number_15_ahead_of_14() {
    found(wrong(|call, image, out| match call {
        Call::Post(Post { label: 16.., .. }) => Answer::refused(15),
        _ => right(call, image, out),
    }));
}

/// Tells the number of the image ahead of 14 and 15, of posts whose slot and label are above 15 or not, as said.
fn behind_the_image<const SLOT_ABOVE: bool, const LABEL_ABOVE: bool>() -> Implementation {
    wrong(|call, image, out| match call {
        Call::Post(post) if (post.slot > 15) == SLOT_ABOVE && (post.label > 15) == LABEL_ABOVE => {
            match reference::check(image) {
                0 => right(call, image, out),
                number => Answer::refused(number),
            }
        }
        _ => right(call, image, out),
    })
}

#[test]
fn numbers_14_and_15_behind_those_of_the_image() {
    found(behind_the_image::<true, false>());
    found(behind_the_image::<false, true>());
    found(behind_the_image::<true, true>());
}

#[test]
fn numbers_14_and_15_behind_13() {
    found(wrong(|call, image, out| match right(call, image, out) {
        answer if answer.number >= 14 && out.len() < image.len() => Answer::refused(13),
        answer => answer,
    }));
}

/// Whether a message in that slot is from the host.
fn has_host_mail(image: &[u8], slot: u32) -> bool {
    let record = &image[reference::record(image, slot)];
    let mail = image.first().and_then(|&version| record.get(task_length(version)..)).unwrap_or_default();
    mail.chunks(MESSAGE_LENGTH).any(|message| message[1] == 16)
}

#[test]
fn a_check_that_refuses_the_hosts_messages() {
    let check = |image: &[u8]| match (0..16).any(|slot| has_host_mail(image, slot)) {
        true => 10,
        false => reference::check(image),
    };
    found(Implementation { name: "wrong", check, ..REFERENCE });
}

#[test]
fn a_check_that_accepts_sender_17() {
    let check = |image: &[u8]| {
        let number = reference::check(image);
        // Only as the sender of a message can 17 be what makes it 10, and 16 in its place not.
        let lowered = image.iter().map(|&byte| if byte == 17 { 16 } else { byte }).collect::<Vec<u8>>();
        if number == 10 && reference::check(&lowered) == 0 {
            0
        } else {
            number
        }
    };
    found(Implementation { name: "wrong", check, ..REFERENCE });
}
