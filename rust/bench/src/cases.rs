//! The runs of turns that are measured, and what must be true of each for its figures to mean what its name says.

use crate::images::{count_live, count_messages, SLOTS};
use crate::{full_mailboxes, light_mailboxes, registers};
use differential::calls::Answer;
use std::ops::RangeInclusive;

/// An image, and what a run with it must keep.
pub struct Case {
    pub name: &'static str,
    pub image: Vec<u8>,
    /// Tasks that are live to the last turn.
    pub live: u64,
    /// The most turns in which one of them is not there yet.
    pub late: u64,
    /// Messages in all mailboxes together after the run.
    pub mail: RangeInclusive<usize>,
}

/// The most that the monitor's time may be as a multiple of the reference's, in each case.
pub const AIM: f64 = 0.9;

/// All cases, in the order in which they are printed: each kind in two workloads, so that no single image is tuned for,
/// beside the full mailboxes one in which every message is dropped and one in which they are counted, and beside the tree
/// the same in version 2.
pub fn cases() -> Vec<Case> {
    full_cases().into_iter().chain(light_cases()).collect()
}

fn full_cases() -> [Case; 6] {
    let case = |name, image, mail| Case { name, image, live: 16, late: 0, mail };
    [
        case(
            "16 tasks, mailboxes full, 60 messages hidden from the receiver",
            full_mailboxes::behind_hidden_mail(),
            960..=1024,
        ),
        case(
            "16 tasks of 8 labels, 40 to 60 messages, most of them hidden",
            full_mailboxes::between_hidden_mail(),
            640..=800,
        ),
        case("16 tasks, mailboxes full, every message dropped", full_mailboxes::nothing_received(), 1024..=1024),
        case("16 tasks of 16 labels, mailboxes full and counted", full_mailboxes::counted(), 1024..=1024),
        case("16 tasks, 8 mailboxes full, all messages receivable", full_mailboxes::eight_receivers(), 400..=512),
        case("16 tasks, 12 mailboxes full, all messages receivable", full_mailboxes::twelve_receivers(), 600..=768),
    ]
}

fn light_cases() -> [Case; 7] {
    let case = |name, image, live, mail| Case { name, image, live, late: 0, mail };
    let tree = |name, image| Case { late: 32, ..case(name, image, 16, 1..=128) };
    let first_and_last = registers::out_of_step([0, SLOTS - 1]);
    [
        case("16 tasks, mailboxes nearly empty", light_mailboxes::ring(), 16, 1..=64),
        tree("1 task that becomes a tree of 16, mailboxes nearly empty", light_mailboxes::tree()),
        tree("the same tree of 16 in version 2, raising within clearances", light_mailboxes::cleared_tree()),
        case("16 tasks, registers only", registers::in_step(SLOTS), 16, 0..=0),
        case("16 tasks out of step, registers only", registers::out_of_step(0..SLOTS), 16, 0..=0),
        case("1 task, registers only", registers::in_step(1), 1, 0..=0),
        case("2 tasks, in the first and the last slot, registers only", first_and_last, 2, 0..=0),
    ]
}

impl Case {
    /// The messages waiting after a run of that many turns, if all that the case says of it is so.
    pub fn check(&self, turns: u64, answer: &Answer, written: &[u8]) -> Result<usize, String> {
        let fault = |what: String| Err(format!("{}: {what}", self.name));
        let most = turns / u64::from(SLOTS) * self.live;
        if !(most.saturating_sub(self.late)..=most).contains(&answer.busy) {
            return fault(format!("{} busy turns, and not {most} or at most {} fewer", answer.busy, self.late));
        }
        let live = count_live(written);
        if live != self.live {
            return fault(format!("{live} live tasks after the run"));
        }
        let mail = count_messages(written);
        if !self.mail.contains(&mail) {
            return fault(format!("{mail} messages after the run"));
        }
        Ok(mail)
    }
}

#[cfg(test)]
mod tests {
    use super::{cases, Case};
    use crate::tally::{Received, Tally};
    use differential::calls::Answer;
    use layout::instructions::{ADD, COPY, COUNT, GO, SELF, SET, SUBTRACT, ZERO};
    use layout::registers_at;
    use std::collections::BTreeSet;

    /// What is done in the case whose name has these words.
    fn tally(words: &str) -> Tally {
        Tally::of(&case(words).image)
    }

    fn case(words: &str) -> Case {
        let mut found = cases().into_iter().filter(|case| case.name.contains(words));
        found.next().filter(|_| found.next().is_none()).expect("one such case")
    }

    #[test]
    fn a_run_that_is_not_what_its_case_says_is_a_fault() {
        let mut case = case("2 tasks");
        let ran = rithennaw::turns(&case.image, 1_600).unwrap();
        let check = |case: &Case, busy| case.check(1_600, &Answer { busy, ..Answer::default() }, &ran.image);
        assert_eq!(check(&case, ran.busy), Ok(0));
        assert!(check(&case, 199).is_err() && check(&case, 201).is_err(), "busy");
        case.late = 1;
        assert!(check(&case, 199).is_ok() && check(&case, 198).is_err() && check(&case, 201).is_err(), "late");
        case.mail = 1..=2;
        assert!(check(&case, 200).is_err(), "mail");
        case.mail = 0..=0;
        case.live = 1;
        assert!(check(&case, 100).is_err(), "live");
    }

    #[test]
    fn sixty_hidden_messages_lie_in_front_and_none_is_dropped() {
        let tally = tally("60 messages hidden");
        assert!(tally.delivered > 0 && tally.dropped == 0 && !tally.received.is_empty());
        assert!(tally.received.iter().all(|received| received.in_front == 60));
    }

    #[test]
    fn where_nothing_is_received_every_message_is_dropped() {
        let tally = tally("every message dropped");
        assert!(tally.dropped > 1_000 && tally.delivered == 0 && tally.received.is_empty());
    }

    #[test]
    fn where_messages_are_counted_none_goes_and_each_label_has_its_number() {
        let case = case("counted");
        assert_eq!(Tally::of(&case.image).codes, BTreeSet::from([COUNT, ADD, GO]));
        let counted = rithennaw::turns(&case.image, 16).unwrap().image;
        for slot in rithennaw::Slot::all() {
            let record = rithennaw::record(&counted, slot);
            let told = u32::from_be_bytes(*record[registers_at(counted[0]) + 4 * 3..].first_chunk().unwrap());
            assert_eq!(told, 4 << record[1].count_ones(), "label {}", record[1]);
        }
    }

    #[test]
    fn hidden_messages_of_other_labels_lie_in_front_of_half_a_mailbox() {
        let tally = tally("8 labels");
        assert!(tally.delivered > 100 && tally.dropped > 100);
        let (odd, even): (Vec<Received>, Vec<Received>) =
            tally.received.into_iter().partition(|received| received.slot % 2 == 1);
        assert!(!odd.is_empty() && odd.iter().all(|received| received.in_front == 32 && received.behind > 15));
        assert!(!even.is_empty() && even.iter().all(|received| received.in_front == 42));
        let labels: BTreeSet<u8> =
            odd.iter().filter(|received| received.slot == 1).map(|received| received.label).collect();
        assert!(labels.len() > 3, "{labels:?}");
    }

    #[test]
    fn with_eight_receivers_most_sends_are_dropped_and_with_twelve_most_are_delivered() {
        let (eight, twelve) = (tally("8 mailboxes"), tally("12 mailboxes"));
        assert!(0 < eight.delivered && eight.delivered < eight.dropped);
        assert!(0 < twelve.dropped && twelve.dropped < twelve.delivered);
        for tally in [eight, twelve] {
            assert!(tally.received.iter().all(|received| received.in_front == 0 && received.behind >= 40));
        }
    }

    #[test]
    fn mailboxes_that_are_nearly_empty_hold_few_messages() {
        for words in ["tasks, mailboxes nearly", "task that becomes", "version 2"] {
            let tally = tally(words);
            assert!(tally.delivered > 0 && !tally.received.is_empty(), "{words}");
            assert!(tally.received.iter().all(|received| received.in_front + received.behind < 8), "{words}");
        }
    }

    #[test]
    fn the_tree_fills_all_slots_and_goes_on_raising_sending_and_receiving() {
        assert_eq!(Tally::of_beginning(&case("task that becomes").image).sandboxed, 15);
        let tally = tally("task that becomes");
        assert!(tally.raised > 100 && tally.delivered > 100 && tally.dropped > 100);
        let receivers: BTreeSet<u8> = tally.received.iter().map(|received| received.slot).collect();
        assert_eq!(receivers.len(), 16);
    }

    /// So that what differs in their times is the version's.
    #[test]
    fn the_tree_of_version_2_does_the_same_below_a_clearance_that_all_come_up_to() {
        let [first, second] =
            ["task that becomes", "version 2"].map(|words| rithennaw::turns(&case(words).image, 16_000));
        let [first, second] = [first.unwrap().image, second.unwrap().image];
        assert_eq!((first[0], second[0]), (1, 2));
        for slot in rithennaw::Slot::all() {
            let [record, cleared] = [&first, &second].map(|image| rithennaw::record(image, slot));
            assert_eq!([&record[..2], &[3], &record[2..]].concat(), cleared);
            assert_eq!(record[1], 3);
        }
    }

    #[test]
    fn tasks_that_use_registers_only_are_in_step_or_not() {
        assert_eq!(tally("16 tasks, registers only").in_step, 1_500);
        let tally = tally("out of step");
        assert!(tally.in_step < 160, "{}", tally.in_step);
        assert_eq!(tally.codes, BTreeSet::from([SET, COPY, ADD, SUBTRACT, GO, ZERO, SELF]));
    }
}
