//! Images whose mailboxes are full, or nearly so.

use crate::images::{figure, four_of_each, image, message_of, sends_to, LABELS, SLOTS};

/// Each round sends two messages to the slot in register 1 and receives at most two, by take and by poll.
pub const EXCHANGE: &str = "
    program
    round:
        send 1 0 2
        take 3 4 0
        add 2 2 3
        send 1 0 2
        poll 3 4 next
        add 2 2 4
    next:
        go round 0 0
";

/// Takes and polls, each as often as the other.
const RECEIVE: &str = "
    receive:
        take 3 4 0
        add 2 2 3
        poll 3 4 receive
        add 2 2 3
        go receive 0 0
";

/// The same, with more to do for each message.
const RECEIVE_SLOWLY: &str = "
    receive:
        take 3 4 0
        add 2 2 3
        copy 7 3 0
        poll 3 4 receive
        add 2 2 3
        subtract 7 7 3
        copy 5 7 0
        go receive 0 0
";

/// Counts and adds up.
const COUNT: &str = "
    program
    round:
        count 3 0 0
        add 2 2 3
        go round 0 0
";

/// Each mailbox has 60 messages that its task may not receive ahead of the few that it may.
pub fn behind_hidden_mail() -> Vec<u8> {
    let mail = four_of_each(1..LABELS) + &message_of(0).repeat(2);
    image(EXCHANGE, 0..SLOTS, |slot| sends_to((slot + 1) % SLOTS, slot) + &mail)
}

/// Tasks of eight labels. One in an even slot has one owner. It sends messages to its neighbours, who have three: most are
/// received there, and those of one label are not. Like them it sends its own label to the other task that has it. Hidden
/// messages stay, so before long they lie in front: they are half of a mailbox in odd slots, and nearly all in even ones.
pub fn between_hidden_mail() -> Vec<u8> {
    let program: String = (0..4).map(|owner| send_up(owner) + &receive_below(owner)).collect();
    image(&format!("program\n{program}"), 0..SLOTS, |slot| {
        let (owner, odd) = (slot / 2 % 4, slot % 2 == 1);
        let (label, place, copies) = if odd { (above(owner), "above", 4) } else { (alone(owner), "alone", 3) };
        let [next, peer, previous] = [1, SLOTS / 2, SLOTS - 1].map(|steps| (slot + steps) % SLOTS);
        let sends = format!("{} register 5 {peer} register 6 {previous}", sends_to(next, slot));
        format!("label {label} place {place}{owner} {sends}{}", mixed_mail(label, copies))
    })
}

/// The label of one owner.
fn alone(owner: u8) -> u8 {
    1 << (owner % 4)
}

/// The label of an owner and of the two that follow.
fn above(owner: u8) -> u8 {
    alone(owner) | alone(owner + 1) | alone(owner + 2)
}

fn send_up(owner: u8) -> String {
    let label = alone(owner);
    let [first, second] = [1, 2].map(|step| label | alone(owner + step));
    let (all, hidden) = (above(owner), label | alone(owner + 3));
    format!(
        "alone{owner}:
            send 1 {label} 2
            send 1 {first} 2
            take 3 4 0
            send 5 {label} 2
            send 1 {second} 2
            send 1 {all} 2
            send 6 {label} 2
            send 6 {first} 2
            add 2 2 3
            send 1 {hidden} 2
            send 5 {label} 2
            poll 3 4 alone{owner}
            add 2 2 3
            go alone{owner} 0 0\n"
    )
}

fn receive_below(owner: u8) -> String {
    let label = above(owner);
    format!(
        "above{owner}:
            send 5 {label} 2
            take 3 4 0
            add 2 2 3
            poll 3 4 above{owner}
            add 2 2 3
            go above{owner} 0 0\n"
    )
}

/// Two messages of each label that a task of this one receives, and `copies` of each that is hidden from it, in turn.
fn mixed_mail(receiver: u8, copies: usize) -> String {
    (0..LABELS).map(|label| message_of(label).repeat(if label & !receiver == 0 { 2 } else { copies })).collect()
}

/// A program that begins by sending messages of every label to the slot in register 1, without end.
fn sends_every_label() -> String {
    let sends: String = (0..LABELS).map(|label| format!("send 1 {label} 2\n")).collect();
    format!("program\nsends:\n{sends}go sends 0 0\n")
}

/// Each sends messages of every label to the next, which has four of each and takes none: all are dropped.
pub fn nothing_received() -> Vec<u8> {
    image(&sends_every_label(), 0..SLOTS, |slot| sends_to((slot + 1) % SLOTS, slot) + &four_of_each(0..LABELS))
}

/// A task of each label counts four messages of every label: from 4 to all 64 are receivable.
pub fn counted() -> Vec<u8> {
    image(COUNT, 0..SLOTS, |slot| format!("label {slot} {}{}", figure(slot), four_of_each(0..LABELS)))
}

/// Even slots send messages of every label to odd ones, which receive all of them, more slowly than they come.
pub fn eight_receivers() -> Vec<u8> {
    let program = sends_every_label() + RECEIVE;
    image(&program, 0..SLOTS, |slot| {
        let sends = sends_to((slot + 1) % SLOTS, slot);
        if slot % 2 == 0 {
            sends
        } else {
            format!("{sends} {}", receiver())
        }
    })
}

/// Every fourth slot sends messages of every label to the three behind it in turn, which receive nearly as fast as they come.
pub fn twelve_receivers() -> Vec<u8> {
    let sends = (0..LABELS).flat_map(|label| [1, 5, 6].map(|receiver| format!("send {receiver} {label} 2\n")));
    let program = format!("program\nsends:\n{}go sends 0 0\n{RECEIVE_SLOWLY}", sends.collect::<String>());
    image(&program, 0..SLOTS, |slot| match slot % 4 {
        0 => format!("{} register 5 {} register 6 {}", sends_to(slot + 1, slot), slot + 2, slot + 3),
        _ => format!("{} {}", figure(slot), receiver()),
    })
}

/// A task that receives messages of all labels, with as many as a mailbox holds.
fn receiver() -> String {
    format!("label 15 place receive{}", four_of_each(0..LABELS))
}
