//! A task's mailbox: messages in the order they came, at most four of each label.

use std::collections::VecDeque;

use crate::label::Label;
use crate::sender::Sender;

/// A message as it lies in a mailbox.
#[derive(Debug, Clone, Copy, PartialEq, Eq)]
pub struct Message {
    pub label: Label,
    pub sender: Sender,
    pub value: u32,
}

/// What the count of one label's messages in a mailbox tells.
#[derive(Debug, Clone, Copy, PartialEq, Eq)]
pub struct Look {
    /// Whether one more message of the label has room.
    pub room: bool,
    /// How many messages were looked at.
    pub looked: usize,
}

/// What the search for receivable messages tells.
#[derive(Debug, Clone, Copy, PartialEq, Eq)]
pub struct Search {
    /// The index of the oldest receivable message, if there is one.
    pub oldest: Option<usize>,
    /// How many messages are receivable.
    pub receivable: u32,
}

/// Messages, oldest first, with a count for each label.
#[derive(Debug)]
pub struct Mailbox {
    messages: VecDeque<Message>,
    counts: [u8; Label::COUNT],
}

impl Mailbox {
    /// How many messages of one label fit.
    const PER_LABEL: u8 = 4;

    /// How many messages fit in all.
    pub const CAPACITY: usize = Mailbox::PER_LABEL as usize * Label::COUNT;

    /// An empty mailbox with room for all it may hold.
    pub fn new() -> Mailbox {
        Mailbox { messages: VecDeque::with_capacity(Mailbox::CAPACITY), counts: [0; Label::COUNT] }
    }

    /// Counts the messages of this label from the oldest on; looks at none behind the fourth, which decides the drop.
    pub fn look(&self, label: Label) -> Look {
        let mut count = 0;
        for (ahead, message) in self.messages.iter().enumerate() {
            count += u8::from(message.label == label);
            if count == Mailbox::PER_LABEL {
                return Look { room: false, looked: ahead + 1 };
            }
        }
        Look { room: true, looked: self.messages.len() }
    }

    /// Puts the message at the end and tells whether there was room for its label.
    pub fn push(&mut self, message: Message) -> bool {
        // By the counts and not by `look`: this crate is also the benchmark's baseline, and a scan would slow it.
        let count = &mut self.counts[message.label.index()];
        let room = *count < Mailbox::PER_LABEL;
        if room {
            *count += 1;
            self.messages.push_back(message);
        }
        room
    }

    /// The index of the oldest message whose label flows to the receiver's.
    fn oldest(&self, receiver: Label) -> Option<usize> {
        self.messages.iter().position(|message| message.label.flows_to(receiver))
    }

    /// Searches the mailbox for the messages whose labels flow to the receiver's.
    pub fn search(&self, receiver: Label) -> Search {
        let receivable = self.messages.iter().filter(|message| message.label.flows_to(receiver));
        Search { oldest: self.oldest(receiver), receivable: receivable.count() as u32 }
    }

    /// Takes out the oldest message whose label flows to the receiver's.
    pub fn take(&mut self, receiver: Label) -> Option<Message> {
        // By `oldest` and not by `search`: this crate is also the benchmark's baseline, and a count would slow it.
        let oldest = self.oldest(receiver)?;
        let message = self.messages.remove(oldest)?;
        self.counts[message.label.index()] -= 1;
        Some(message)
    }

    /// Leaves out the messages whose labels don't flow to the observer's.
    pub fn keep_visible(&mut self, observer: Label) {
        let counts = &mut self.counts;
        self.messages.retain(|message| {
            let visible = message.label.flows_to(observer);
            if !visible {
                counts[message.label.index()] -= 1;
            }
            visible
        });
    }

    /// The messages, oldest first.
    pub fn messages(&self) -> impl ExactSizeIterator<Item = &Message> {
        self.messages.iter()
    }
}
