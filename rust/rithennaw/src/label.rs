//! Labels.

use crate::OutOfRange;
use std::fmt;

/// The set of owners whose figures may be present: a number 0 to 15, of which bit o stands for owner o, 0 to 3.
#[derive(Debug, Clone, Copy, PartialEq, Eq, Hash)]
pub struct Label(u8);

impl Label {
    /// Label 0, no owner's figures: it flows to every label.
    pub const PUBLIC: Label = Label(0);
    /// Label 15, all owners' figures: every label flows to it.
    pub const TOP: Label = Label(15);
    /// The label of each owner alone, owner 0 first: 1, 2, 4 and 8.
    pub const OWNERS: [Label; 4] = [Label(1), Label(2), Label(4), Label(8)];

    /// The labels 0 to 15, in order.
    pub fn all() -> impl Iterator<Item = Label> {
        (Label::PUBLIC.0..=Label::TOP.0).map(Label)
    }

    /// The owners in this label, each 0 to 3, in order.
    pub fn owners(self) -> impl Iterator<Item = u8> {
        (0..4).filter(move |owner| self.0 >> owner & 1 == 1)
    }

    /// Whether each owner in this label is also in `other`. A task receives the messages whose labels flow to its
    /// own, and an observer sees the tasks and messages whose labels flow to its own.
    pub const fn flows_to(self, other: Label) -> bool {
        self.0 & !other.0 == 0
    }

    /// The owners of either.
    #[must_use]
    pub const fn join(self, other: Label) -> Label {
        Label(self.0 | other.0)
    }
}

impl TryFrom<u8> for Label {
    type Error = OutOfRange;

    fn try_from(number: u8) -> Result<Label, OutOfRange> {
        if number <= Label::TOP.0 {
            Ok(Label(number))
        } else {
            Err(OutOfRange { number, first: Label::PUBLIC.0, last: Label::TOP.0 })
        }
    }
}

impl From<Label> for u8 {
    fn from(label: Label) -> u8 {
        label.0
    }
}

impl fmt::Display for Label {
    fn fmt(&self, f: &mut fmt::Formatter<'_>) -> fmt::Result {
        self.0.fmt(f)
    }
}
