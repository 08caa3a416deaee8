//! What turns did to tasks that have a clearance, told from the records before and after them.

use crate::report::Fact;
use layout::clearance_length;
use layout::records::records;

/// The kind of a task that its clearance stopped.
pub const STOPPED_BY_CLEARANCE: u8 = 6;

/// What became of a task: its record before and after, empty where the slot is unused.
type Event = fn(&[u8], &[u8]) -> bool;

/// The facts, each of which holds where this became of a task.
const EVENTS: [(Fact, Event); 3] = [
    (Fact::StoppedByClearance, was_stopped),
    (
        Fact::RaisedWithinClearance,
        |before, after| matches!((before, after), ([_, label, 0..=14, ..], [_, raised, ..]) if label != raised),
    ),
    (Fact::ChildWithClearance, |before, after| matches!((before, after), ([], [_, _, 0..=14, ..]))),
];

/// Whether the task's clearance stopped it.
pub fn was_stopped(before: &[u8], after: &[u8]) -> bool {
    let [before, after] = [before, after].map(|record| record.first() == Some(&STOPPED_BY_CLEARANCE));
    !before && after
}

/// The facts that hold of turns which made `after` of an accepted image.
pub fn facts(before: &[u8], after: &[u8]) -> Vec<Fact> {
    if clearance_length(before[0]) == 0 {
        return Vec::new();
    }
    let tasks: Vec<_> = records(before).zip(records(after)).collect();
    let events = EVENTS.iter().filter(|(_, event)| tasks.iter().any(|(before, after)| event(before, after)));
    events.map(|&(fact, _)| fact).collect()
}
