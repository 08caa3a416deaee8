//! Images whose tasks have no mail and use registers only.

use crate::images::{image, sends_to};

/// Register 2 counts down from 255, and around again.
const COUNT_DOWN: &str = "
    program
        set 0 0 1
    around:
        set 2 0 255
    down:
        zero 2 around 0
        subtract 2 2 0
        add 3 3 2
        go down 0 0
";

/// Register 2 counts down from the task's slot in steps of five instructions, then from 3 in steps of seven: tasks go round at
/// paces of their own.
const OUT_OF_STEP: &str = "
    program
    around:
        set 0 0 1
        self 6 7 0
        copy 2 7 0
    fives:
        zero 2 three 0
        subtract 2 2 0
        add 4 3 4
        copy 3 4 0
        go fives 0 0
    three:
        set 2 0 3
    sevens:
        zero 2 around 0
        subtract 2 2 0
        self 6 1 0
        subtract 4 4 1
        add 3 3 4
        set 6 1 44
        go sevens 0 0
";

/// As many tasks in the first slots. All do the same instruction in a round, and no task uses register 1.
pub fn in_step(tasks: u8) -> Vec<u8> {
    image(COUNT_DOWN, 0..tasks, |slot| sends_to((slot + 1) % tasks, slot))
}

/// Tasks in these slots, which begin each at a place of its own: there are as many places as slots.
pub fn out_of_step(slots: impl IntoIterator<Item = u8>) -> Vec<u8> {
    image(OUT_OF_STEP, slots, |slot| format!("place {slot} register 0 1 register 3 {slot}"))
}
