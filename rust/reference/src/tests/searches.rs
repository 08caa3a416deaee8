//! The search for receivable messages: what it tells, and what take and count make of it.

use super::calls::seen;
use super::looks::{label, made_up_mail, mailbox, CAPACITY, LABELS};
use super::{assert_after, image, mail, END};
use crate::mailbox::Search;
use layout::{Image, Message, Task};

fn search(mail: &[Message], receiver: u8) -> Search {
    mailbox(mail).search(label(receiver))
}

/// The indices of the messages that are receivable with this label.
fn receivable(mail: &[Message], receiver: u8) -> Vec<usize> {
    (0..mail.len()).filter(|&index| mail[index].label | receiver == receiver).collect()
}

/// Four messages of each label, those of one label apart.
fn full_mail() -> Vec<Message> {
    let message = |index: u8| Message { label: 15 - index % LABELS, sender: index % 17, value: index.into() };
    (0..CAPACITY as u8).map(message).collect()
}

#[test]
fn the_search_tells_the_oldest_and_how_many() {
    let mail = mail([(2, 9, 70), (4, 8, 71), (15, 7, 72), (5, 16, 73), (0, 6, 74), (8, 5, 75)]);
    assert_eq!(search(&mail, 5), Search { oldest: Some(1), receivable: 3 });
    assert_eq!(search(&mail, 1), Search { oldest: Some(4), receivable: 1 });
    assert_eq!(search(&mail[..4], 8), Search { oldest: None, receivable: 0 });
}

#[test]
fn takes_take_what_the_search_tells_until_it_tells_none() {
    for mail in &made_up_mail() {
        for receiver in 0..LABELS {
            let mut mailbox = mailbox(mail);
            let indices = receivable(mail, receiver);
            for (taken, &index) in indices.iter().enumerate() {
                let told = Search { oldest: Some(index - taken), receivable: (indices.len() - taken) as u32 };
                assert_eq!(mailbox.search(label(receiver)), told, "{receiver} in {mail:?}");
                let message = mailbox.take(label(receiver));
                assert_eq!(message.map(|message| message.value), Some(mail[index].value));
            }
            assert_eq!(mailbox.search(label(receiver)), Search { oldest: None, receivable: 0 });
            assert_eq!(mailbox.take(label(receiver)), None);
            assert_eq!(mailbox.messages().len(), mail.len() - indices.len());
        }
    }
}

/// A task of each label, in the slot of that number, about to count a full mailbox into register 3.
fn counting_tasks() -> Image {
    let mut image = image(&[[0xD, 3, 0, 0], END], &[]);
    for (slot, label) in image.slots.iter_mut().zip(0..) {
        *slot = Some(Task { label, mail: full_mail(), ..Task::default() });
    }
    image
}

/// The tasks after each has counted four messages of each label made of bits of its own.
fn counted_tasks() -> Image {
    let mut image = counting_tasks();
    for task in image.slots.iter_mut().flatten() {
        (task.place, task.registers[3]) = (1, 4 << task.label.count_ones());
    }
    image
}

/// The secrecy rule: an image and the observer's view of it have equal views after the counts. For label 15 the view is
/// the image.
#[test]
fn what_an_observer_may_not_see_changes_no_count_that_it_sees() {
    for observer in 0..LABELS {
        let (counting, counted) = (seen(counting_tasks(), observer), seen(counted_tasks(), observer));
        assert_after(&counting, 16, &counted, 1 << observer.count_ones());
    }
}
