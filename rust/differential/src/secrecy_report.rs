//! What the secrecy rule was tried on, and the least that there must be.

use crate::observers::{Least, TrialTally};

/// What is counted of trials whose images differ at the start. A post is visible where its label flows to the observer.
#[derive(Debug, Clone, Copy)]
pub enum Fact {
    ImagesDiffer,
    ListsDiffer,
    CallRefused,
    PostRefused,
    HiddenTaskRan,
    BothRan,
    BusyCountsDiffer,
    VisibleCounts,
    Version1,
    Version2,
    VisibleStopped,
    HiddenStopsDiffer,
    VisibleDelivered,
    VisibleToUnusedSlot,
    VisibleToStoppedTask,
    VisibleBehindFour,
    VisibleToHiddenTask,
    VisibleDeliveriesDiffer,
    HiddenPostsDiffer,
    HiddenToVisibleTask,
}

/// The words for each fact, and the least number of trials of which it holds.
const FACTS: [Least; 20] = [
    ("images differ at the start", 2_000),
    ("lists differ", 2_000),
    ("calls refused", 2_000),
    ("posts refused", 2_000),
    ("hidden task ran", 2_000),
    ("visible and hidden tasks ran", 2_000),
    ("busy counts differ", 2_000),
    ("visible task counts where hidden mail differs", 1_000),
    ("images of version 1", 2_000),
    ("images of version 2", 2_000),
    ("visible task stopped by its clearance", 500),
    ("hidden task stopped by its clearance in one list only", 300),
    ("visible post delivered", 2_000),
    ("visible post to an unused slot", 2_000),
    ("visible post to a stopped task", 2_000),
    ("visible post behind four of its label", 2_000),
    ("visible post to a hidden task", 2_000),
    ("visible post delivered in one list only", 1_000),
    ("hidden posts differ", 2_000),
    ("hidden post to a visible task", 2_000),
];

/// The tally of a run that has tried nothing yet. A trial is a pair tried on one implementation.
pub fn tally() -> TrialTally {
    TrialTally::new("secrecy", &FACTS)
}
