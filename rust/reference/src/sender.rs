//! Senders of messages: tasks by their slots, and the host.

use crate::slot::Slot;

/// The number of a sender: a task's slot, 0 to 15, or 16 for the host.
#[derive(Debug, Clone, Copy, PartialEq, Eq)]
pub struct Sender(u8);

impl Sender {
    /// The host, whose number is the first behind the slots'.
    pub const HOST: Sender = Sender(Slot::COUNT as u8);

    /// The sender with this number, if it is at most 16.
    pub fn new(number: u8) -> Option<Sender> {
        (number <= Sender::HOST.0).then_some(Sender(number))
    }

    /// The sender's number, 0 to 16.
    pub fn number(self) -> u8 {
        self.0
    }
}

impl From<Slot> for Sender {
    /// The task that stands in this slot.
    fn from(slot: Slot) -> Sender {
        Sender(slot.number())
    }
}

#[cfg(test)]
mod tests {
    use super::Sender;

    #[test]
    fn the_host_is_16_and_no_sender_comes_behind_it() {
        assert_eq!(Sender::HOST.number(), 16);
        assert_eq!(Sender::new(16), Some(Sender::HOST));
        assert_eq!(Sender::new(17), None);
    }
}
