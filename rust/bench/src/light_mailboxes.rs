//! Images whose mailboxes are nearly empty.

use crate::full_mailboxes::EXCHANGE;
use crate::images::{image, sends_to, SLOTS};

/// A task with spare 15 starts one in half of the slots, one in half of what is left, and so on. Each of them goes on
/// likewise with what it got, since it begins where its parent goes on: after a few rounds all slots are used. Tasks in
/// even slots have one to four children, whose slots are in registers 1 to 4, and those in odd slots none; the parent's
/// slot is in register 0. All raise their labels to 3 and send with it. Messages of label 7 are hidden from the parent:
/// four of them stay there.
const TREE: &str = "
    program
        sandbox 4 half 8
    half:
        sandbox 3 quarter 4
    quarter:
        sandbox 2 eighth 2
    eighth:
        sandbox 1 leaf 1
        self 5 7 0
        raise 1 0 0
    parent:
        raise 3 0 0
        send 0 3 7
        send 1 3 7
        poll 5 6 children
        add 7 7 5
    children:
        zero 2 parent 0
        send 2 3 7
        poll 5 6 third
        add 7 7 6
    third:
        zero 3 parent 0
        send 3 3 7
        zero 4 parent 0
        send 4 3 7
        poll 5 6 parent
        go parent 0 0
    leaf:
        self 5 7 0
        raise 2 0 0
        raise 1 0 0
    report:
        send 0 3 7
        take 5 6 0
        add 7 7 5
        raise 2 0 0
        send 0 7 7
        poll 5 6 report
        subtract 7 7 5
        go report 0 0
";

/// Each sends to the next, takes and polls.
pub fn ring() -> Vec<u8> {
    image(EXCHANGE, 0..SLOTS, |slot| sends_to((slot + 1) % SLOTS, slot))
}

/// One task that becomes sixteen.
pub fn tree() -> Vec<u8> {
    image(TREE, [0], |_| "spare 15".to_string())
}

/// The same in version 2, with the clearance that just admits what all of them raise to.
pub fn cleared_tree() -> Vec<u8> {
    image(&format!("version 2\n{TREE}"), [0], |_| "clearance 3 spare 15".to_string())
}
