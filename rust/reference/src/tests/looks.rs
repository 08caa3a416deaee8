//! The count of one label's messages in a mailbox: where it stops, what it tells, and what `lookprobe` prints of it.

use super::{assert_after, bytes_in_versions, image, kinds, mail, END, ROOM};
use crate::label::Label;
use crate::mailbox::{self, Look, Mailbox};
use crate::sender::Sender;
use crate::{looks, post};
use layout::{Image, Message, Task, HOST, SLOTS, VERSIONS};

pub(super) const LABELS: u8 = 16;
const PER_LABEL: usize = 4;
pub(super) const CAPACITY: usize = 64;

/// Numbers that look random and are the same in each run.
struct Made(u64);

impl Made {
    /// A number below the limit; the high bits are taken, as the low ones repeat soon.
    fn below(&mut self, limit: usize) -> usize {
        self.0 = self.0.wrapping_mul(6_364_136_223_846_793_005).wrapping_add(1_442_695_040_888_963_407);
        (self.0 >> 33) as usize % limit
    }

    fn shuffle<T>(&mut self, items: &mut [T]) {
        for last in (1..items.len()).rev() {
            items.swap(last, self.below(last + 1));
        }
    }

    /// So many messages that fit behind those in front; only these labels occur.
    fn mail(&mut self, front: &[Message], labels: &[u8], length: usize) -> Vec<Message> {
        let mut fitting: Vec<u8> =
            labels.iter().flat_map(|&label| vec![label; PER_LABEL - count(front, label)]).collect();
        self.shuffle(&mut fitting);
        fitting.truncate(length);
        let message = |label| Message { label, sender: self.below(17) as u8, value: self.below(1 << 31) as u32 };
        fitting.into_iter().map(message).collect()
    }
}

/// Mail of every length, each of as few labels as can hold it, of all, and of every number between.
pub(super) fn made_up_mail() -> Vec<Vec<Message>> {
    let mut made = Made(3);
    let mut labels: Vec<u8> = (0..LABELS).collect();
    let mut mails = Vec::new();
    for length in 0..=CAPACITY {
        for different in length.div_ceil(PER_LABEL)..=labels.len() {
            made.shuffle(&mut labels);
            mails.push(made.mail(&[], &labels[..different], length));
            assert_eq!(mails.last().map(Vec::len), Some(length));
        }
    }
    mails
}

fn count(mail: &[Message], label: u8) -> usize {
    mail.iter().filter(|message| message.label == label).count()
}

pub(super) fn label(number: u8) -> Label {
    Label::new(number).expect("a label")
}

/// Pushes a message and tells whether there was room.
fn push(mailbox: &mut Mailbox, message: &Message) -> bool {
    let sender = Sender::new(message.sender).expect("a sender");
    mailbox.push(mailbox::Message { label: label(message.label), sender, value: message.value })
}

/// The mailbox that holds this mail.
pub(super) fn mailbox(mail: &[Message]) -> Mailbox {
    let mut mailbox = Mailbox::new();
    assert!(mail.iter().all(|message| push(&mut mailbox, message)));
    mailbox
}

fn look(mail: &[Message], number: u8) -> Look {
    mailbox(mail).look(label(number))
}

/// What the count is to tell, from the places of all messages of the label.
fn told(mail: &[Message], label: u8) -> Look {
    let places: Vec<usize> = (0..mail.len()).filter(|&place| mail[place].label == label).collect();
    match places.get(3) {
        Some(fourth) => Look { room: false, looked: fourth + 1 },
        None => Look { room: true, looked: mail.len() },
    }
}

/// Four messages of each label but 7, those of one label together.
fn all_but_sevens() -> Vec<Message> {
    (0..LABELS).filter(|&label| label != 7).flat_map(|label| mail([(label, 1, 0); PER_LABEL])).collect()
}

#[test]
fn with_fewer_than_four_the_whole_mailbox_is_looked_at() {
    for label in 0..LABELS {
        assert_eq!(look(&[], label), Look { room: true, looked: 0 });
    }
    let three = mail([(7, 1, 0), (6, 1, 1), (7, 16, 2), (7, 2, 3), (15, 1, 4)]);
    assert_eq!(look(&three, 7), Look { room: true, looked: 5 });
    assert_eq!(look(&three, 0), Look { room: true, looked: 5 });
}

#[test]
fn the_fourth_is_the_last_that_is_looked_at() {
    let mut four = mail([(7, 1, 0), (6, 1, 1), (7, 16, 2), (7, 2, 3), (7, 1, 4)]);
    assert_eq!(look(&four, 7), Look { room: false, looked: 5 });
    assert_eq!(look(&four, 6), Look { room: true, looked: 5 });
    four.extend(mail([(6, 1, 5)]));
    assert_eq!(look(&four, 7), Look { room: false, looked: 5 });
    assert_eq!(look(&four, 6), Look { room: true, looked: 6 });
}

#[test]
fn in_a_full_mailbox_the_four_may_stand_at_either_end() {
    let sevens = mail([(7, 1, 0); PER_LABEL]);
    let ahead = [sevens.clone(), all_but_sevens()].concat();
    let behind = [all_but_sevens(), sevens].concat();
    assert_eq!((ahead.len(), behind.len()), (CAPACITY, CAPACITY));
    assert_eq!(look(&ahead, 7), Look { room: false, looked: 4 });
    assert_eq!(look(&ahead, 15), Look { room: false, looked: 64 });
    assert_eq!(look(&behind, 7), Look { room: false, looked: 64 });
    assert_eq!(look(&behind, 0), Look { room: false, looked: 4 });
}

#[test]
fn the_count_ends_at_the_place_of_the_fourth() {
    for mail in made_up_mail() {
        for label in 0..LABELS {
            assert_eq!(look(&mail, label), told(&mail, label), "{label} in {mail:?}");
        }
    }
}

#[test]
fn there_is_room_exactly_where_one_more_is_taken() {
    for mail in made_up_mail() {
        for label in 0..LABELS {
            let mut mailbox = mailbox(&mail);
            let room = mailbox.look(self::label(label)).room;
            assert_eq!(room, count(&mail, label) < PER_LABEL);
            assert_eq!(push(&mut mailbox, &Message { label, sender: HOST, value: 0 }), room);
            assert_eq!(mailbox.messages().len(), mail.len() + usize::from(room));
        }
    }
}

#[test]
fn what_stands_behind_the_fourth_changes_nothing() {
    let mut made = Made(5);
    let labels: Vec<u8> = (0..LABELS).collect();
    for mail in made_up_mail() {
        for label in (0..LABELS).filter(|&label| count(&mail, label) == PER_LABEL) {
            let told = look(&mail, label);
            let front = &mail[..told.looked];
            assert_eq!(look(front, label), told);
            let length = made.below(CAPACITY + 1 - front.len());
            let other = made.mail(front, &labels, length);
            assert_eq!(look(&[front, &other].concat(), label), told);
            let without = &front[..front.len() - 1];
            assert_eq!(look(without, label), Look { room: true, looked: without.len() });
        }
    }
}

#[test]
fn messages_that_went_are_not_looked_at() {
    for mail in made_up_mail().iter().step_by(5) {
        for receiver in 0..LABELS {
            let visible = |message: &&Message| message.label | receiver == receiver;
            let seen: Vec<Message> = mail.iter().filter(visible).copied().collect();
            let hidden: Vec<Message> = mail.iter().filter(|message| !visible(message)).copied().collect();
            let (mut kept, mut emptied) = (mailbox(mail), mailbox(mail));
            kept.keep_visible(label(receiver));
            while emptied.take(label(receiver)).is_some() {}
            for number in 0..LABELS {
                assert_eq!(kept.look(label(number)), told(&seen, number));
                assert_eq!(emptied.look(label(number)), told(&hidden, number));
            }
        }
    }
}

/// What `lookprobe` prints of a task with this mail.
fn printed(mail: &[Message]) -> Vec<u8> {
    let bytes = |look: Look| [look.room.into(), look.looked as u8];
    (0..LABELS).flat_map(|label| bytes(told(mail, label))).collect()
}

#[test]
fn lookprobe_prints_each_label_of_each_slot_whatever_the_tasks_kind() {
    for version in VERSIONS {
        let kinds: Vec<u8> = kinds(version).collect();
        for (row, mails) in made_up_mail().chunks(SLOTS).enumerate() {
            let mut image = Image { version, ..image(&[END], &[]) };
            let mut expected = vec![0; SLOTS * 32];
            for (slot, mail) in mails.iter().enumerate().filter(|(slot, _)| (slot + row) % 7 != 0) {
                let kind = kinds[(slot + row) % kinds.len()];
                image.slots[slot] = Some(Task { kind, mail: mail.clone(), ..Task::default() });
                expected[slot * 32..][..32].copy_from_slice(&printed(mail));
            }
            assert_eq!(looks(&image.bytes()), expected);
        }
    }
}

/// In each version, this is what `lookprobe` prints of the image.
fn assert_looks(image: &Image, expected: &[u8]) {
    bytes_in_versions(image).iter().for_each(|bytes| assert_eq!(looks(bytes), expected));
}

#[test]
fn lookprobe_prints_zeros_for_unused_slots_and_nothing_for_a_refused_image() {
    let mut image = image(&[END], &[]);
    assert_looks(&image, &[0; 512]);
    image.slots[2] = Some(Task { kind: 2, ..Task::default() });
    let empty = [vec![0; 64], [1, 0].repeat(16), vec![0; 416]].concat();
    assert_looks(&image, &empty);
    image.task(2).mail = mail([(0, 1, 0); PER_LABEL + 1]);
    assert_looks(&image, &[]);
    assert!(looks(&[]).is_empty());
}

#[test]
fn sends_and_posts_to_a_live_task_are_delivered_where_lookprobe_tells_room() {
    let mut image = image(&[[8, 0, 0, 0], END], &[0, 9]);
    image.task(0).registers[0] = 9;
    for waiting in made_up_mail().iter().step_by(3) {
        image.task(9).mail.clone_from(waiting);
        let printed = looks(&image.bytes());
        for label in 0..LABELS {
            image.program[0][2] = label;
            let room = printed[9 * 32 + 2 * usize::from(label)] == 1;
            for bytes in bytes_in_versions(&image) {
                assert_eq!(post(&bytes, 9, label.into(), 700, &mut [0; ROOM]).delivered, room);
            }
            let mut sent = image.clone();
            (sent.turn_slot, sent.task(0).place) = (1, 1);
            if room {
                sent.task(9).mail.extend(mail([(label, 0, 9)]));
            }
            assert_after(&image, 1, &sent, 1);
        }
    }
}
