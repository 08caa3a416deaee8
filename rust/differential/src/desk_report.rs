//! What the laws of desks were tried on, and the least that there must be.

use crate::observers::{Least, TrialTally};

/// What is counted of trials whose view hides something. The host's mail is messages with sender 16; what is visible or
/// hidden is so for the owner of the desk.
#[derive(Debug, Clone, Copy)]
pub enum Fact {
    SomethingHidden,
    Version1,
    Version2,
    HostMailShown,
    HostMailHidden,
    TurnLimit,
    VisibleTaskRan,
    HiddenTaskRan,
    TaskLeftView,
    SandboxOnDesk,
    StoppedOnDesk,
    HostMailTakenOnDesk,
    HiddenTaskOnDesk,
    HiddenMailOnDesk,
    NoCommonBits,
    SomeCommonBits,
    CommonViewLess,
    HostMailSeenTwice,
    HostMailSeenOnce,
    VisiblePostDelivered,
    VisiblePostOnHostAlone,
    VisiblePostDropped,
    HiddenPostDelivered,
    HiddenPostOnDeskAlone,
    HiddenPostOnHostAlone,
    ListsDiffer,
    ListPostDelivered,
    ListPostOnHostAlone,
    ListHiddenPostDelivered,
}

/// The words for each fact, and the least number of trials of which it holds.
const FACTS: [Least; 29] = [
    ("something is hidden", 2_000),
    ("images of version 1", 2_000),
    ("images of version 2", 2_000),
    ("host's mail shown", 2_000),
    ("host's mail hidden", 2_000),
    ("1,000,000 turns", 100),
    ("visible task ran", 2_000),
    ("hidden task ran", 2_000),
    ("visible task rose out of the view", 500),
    ("task made on the desk", 200),
    ("task stopped by its clearance on the desk", 500),
    ("host's mail taken on the desk", 500),
    ("hidden task on the desk ahead of the second view", 500),
    ("hidden mail on the desk ahead of the second view", 500),
    ("neither observer within the other, no bits in common", 1_000),
    ("neither observer within the other, bits in common", 1_000),
    ("view for the common bits less than either view", 1_000),
    ("host's mail in a view of a view", 500),
    ("host's mail in either view that a view of a view has not", 500),
    ("visible post delivered", 2_000),
    ("visible post delivered on the host alone", 1_000),
    ("visible post dropped", 2_000),
    ("hidden post delivered", 2_000),
    ("hidden post delivered on the desk alone", 500),
    ("hidden post delivered on the host alone", 1_000),
    ("lists differ", 2_000),
    ("visible post of a list delivered", 1_000),
    ("visible post of a list delivered on the host alone", 500),
    ("hidden post of a list delivered", 2_000),
];

/// The tally of a run that has tried nothing yet.
pub fn tally() -> TrialTally {
    TrialTally::new("desks", &FACTS)
}
