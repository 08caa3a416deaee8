//! The step rules, instruction by instruction.

use super::{after, assert_after, image, kinds, mail, END};
use layout::{Image, Instruction, Message, Task, VERSIONS};

/// A live task in slot 2 of label 5, at place 1 of a program of three instructions, about to carry out this one; the
/// registers hold 100 to 107.
fn about_to(instruction: Instruction) -> Image {
    let mut image = image(&[END, instruction, END], &[2]);
    image.turn_slot = 2;
    let task = image.task(2);
    (task.label, task.place) = (5, 1);
    task.registers = [100, 101, 102, 103, 104, 105, 106, 107];
    image
}

/// In each version, one turn makes this change to the task in slot 2 and no other.
fn assert_step(image: &Image, change: impl FnOnce(&mut Task)) {
    let mut expected = image.clone();
    expected.turn_slot = 3;
    change(expected.task(2));
    assert_after(image, 1, &expected, 1);
}

/// One turn goes on to place 2 and puts these figures into registers.
fn assert_registers(instruction: Instruction, figures: &[(usize, u32)]) {
    assert_step(&about_to(instruction), |task| {
        task.place = 2;
        for &(register, figure) in figures {
            task.registers[register] = figure;
        }
    });
}

#[test]
fn end_keeps_its_place() {
    assert_step(&about_to(END), |task| task.kind = 2);
}

#[test]
fn figures() {
    assert_registers([1, 4, 0xAB, 0xCD], &[(4, 0xABCD)]);
    assert_registers([2, 4, 6, 0], &[(4, 106)]);
    assert_registers([3, 4, 6, 7], &[(4, 213)]);
    assert_registers([4, 4, 7, 6], &[(4, 1)]);
    assert_registers([4, 4, 6, 7], &[(4, u32::MAX)]);
    assert_registers([0xC, 4, 6, 0], &[(4, 5), (6, 2)]);
    assert_registers([0xC, 4, 4, 0], &[(4, 2)]);
}

#[test]
fn adding_wraps() {
    let mut image = about_to([3, 0, 1, 2]);
    (image.task(2).registers[1], image.task(2).registers[2]) = (u32::MAX, 3);
    assert_step(&image, |task| (task.place, task.registers[0]) = (2, 2));
}

#[test]
fn go_and_zero() {
    assert_step(&about_to([5, 0, 0, 0]), |task| task.place = 0);
    assert_step(&about_to([6, 3, 0, 0]), |task| task.place = 2);
    let mut image = about_to([6, 3, 0, 0]);
    image.task(2).registers[3] = 0;
    assert_step(&image, |task| task.place = 0);
}

#[test]
fn raise_joins() {
    assert_step(&about_to([7, 6, 0, 0]), |task| (task.place, task.label) = (2, 7));
}

#[test]
fn a_live_task_behind_the_program_runs_off() {
    let mut image = about_to(END);
    image.task(2).place = 3;
    assert_step(&image, |task| task.kind = 3);
}

/// Each version with each kind of a stopped task in it.
fn stopped_kinds() -> impl Iterator<Item = (u8, u8)> {
    VERSIONS.into_iter().flat_map(|version| kinds(version).skip(1).map(move |kind| (version, kind)))
}

#[test]
fn stopped_tasks_and_unused_slots_are_not_busy() {
    for (version, kind) in stopped_kinds() {
        let mut image = Image { version, ..about_to(END) };
        image.task(2).kind = kind;
        let mut expected = image.clone();
        expected.turn_slot = 4;
        assert_eq!(after(&image, 2), (expected.bytes(), 0));
    }
}

#[test]
fn slot_15_is_followed_by_slot_0() {
    let mut image = image(&[END], &[0]);
    image.turn_slot = 15;
    let mut expected = image.clone();
    (expected.turn_slot, expected.task(0).kind) = (1, 2);
    assert_after(&image, 2, &expected, 1);
}

/// Mail of which only the third and the fourth message are receivable with label 5.
fn mixed_mail() -> Vec<Message> {
    mail([(2, 9, 70), (15, 8, 71), (4, 7, 72), (0, 6, 73)])
}

#[test]
fn take_and_poll_take_the_oldest_receivable_message() {
    for instruction in [[9, 3, 4, 0], [10, 3, 4, 0]] {
        let mut image = about_to(instruction);
        image.task(2).mail = mixed_mail();
        assert_step(&image, |task| {
            (task.place, task.registers[3], task.registers[4]) = (2, 72, 7);
            task.mail.remove(2);
        });
    }
}

#[test]
fn the_sender_stays_where_both_registers_are_the_same() {
    for instruction in [[9, 3, 3, 0], [10, 3, 3, 0]] {
        let mut image = about_to(instruction);
        image.task(2).mail = mixed_mail();
        assert_step(&image, |task| {
            (task.place, task.registers[3]) = (2, 7);
            task.mail.remove(2);
        });
    }
}

#[test]
fn with_nothing_receivable_take_waits_and_poll_jumps() {
    for (instruction, place) in [([9, 3, 4, 0], 1), ([10, 3, 4, 0], 0)] {
        let mut image = about_to(instruction);
        image.task(2).mail = mail([(2, 9, 70), (15, 8, 71)]);
        assert_step(&image, |task| task.place = place);
    }
}

#[test]
fn count_of_an_empty_mailbox_is_0_in_whichever_register() {
    for register in 0..8 {
        assert_registers([0xD, register, 0, 0], &[(register.into(), 0)]);
    }
}

#[test]
fn count_leaves_out_what_is_not_receivable_and_leaves_the_mail_as_it_is() {
    let hidden = mail([(2, 9, 70), (15, 8, 71)]);
    let around = mail([(8, 1, 1), (5, 2, 2), (7, 3, 3), (1, 16, 4), (13, 5, 5), (5, 6, 6), (10, 7, 7)]);
    for (mail, number) in [(hidden, 0), (around, 3)] {
        let mut image = about_to([0xD, 3, 0, 0]);
        image.task(2).mail = mail;
        assert_step(&image, |task| (task.place, task.registers[3]) = (2, number));
    }
}

/// A task of label 5 with mixed mail, whose register 0 holds its own slot, counts 2 messages into register 3, carries
/// out this instruction and counts this number into register 4; this is the change that the instruction makes.
fn assert_count_after(instruction: Instruction, number: u32, change: impl FnOnce(&mut Task)) {
    let mut image = image(&[[0xD, 3, 0, 0], instruction, [0xD, 4, 0, 0]], &[2]);
    image.turn_slot = 2;
    let task = image.task(2);
    (task.label, task.registers[0], task.mail) = (5, 2, mixed_mail());
    let mut expected = image.clone();
    expected.turn_slot = 3;
    let task = expected.task(2);
    (task.place, task.registers[3], task.registers[4]) = (3, 2, number);
    change(task);
    assert_after(&image, 33, &expected, 3);
}

#[test]
fn count_after_a_raise_has_what_became_receivable() {
    assert_count_after([7, 2, 0, 0], 3, |task| task.label = 7);
}

#[test]
fn count_after_a_take_or_poll_is_one_less() {
    for instruction in [[9, 6, 7, 0], [10, 6, 7, 0]] {
        assert_count_after(instruction, 1, |task| {
            (task.registers[6], task.registers[7]) = (72, 7);
            task.mail.remove(2);
        });
    }
}

#[test]
fn count_after_a_send_to_itself_has_the_message_if_it_is_receivable() {
    for (label, number) in [(5, 3), (7, 2)] {
        assert_count_after([8, 0, label, 0], number, |task| task.mail.extend(mail([(label, 2, 2)])));
    }
}

/// A task in slot 2 of label 5 about to send label 7 and the figure 102 to the slot in register 1.
fn about_to_send(to: u32) -> Image {
    let mut image = about_to([8, 1, 7, 2]);
    image.task(2).registers[1] = to;
    image
}

#[test]
fn a_task_may_send_to_itself() {
    assert_step(&about_to_send(2), |task| (task.place, task.mail) = (2, mail([(7, 2, 102)])));
}

#[test]
fn sends_to_no_live_task_are_dropped() {
    for to in [3, 15, 16, 18, 256 + 2, 65536 + 2, u32::MAX] {
        assert_step(&about_to_send(to), |task| task.place = 2);
    }
    for (version, kind) in stopped_kinds() {
        let mut image = Image { version, ..about_to_send(3) };
        image.slots[3] = Some(Task { kind, ..Task::default() });
        let mut expected = image.clone();
        (expected.turn_slot, expected.task(2).place) = (3, 2);
        assert_eq!(after(&image, 1), (expected.bytes(), 1));
    }
}

#[test]
fn a_full_label_drops_and_others_are_kept() {
    let mut image = about_to_send(2);
    image.task(2).mail = mail([(7, 1, 0), (7, 1, 1), (6, 1, 2), (7, 1, 3), (7, 1, 4)]);
    assert_step(&image, |task| task.place = 2);
    image.task(2).mail.pop();
    assert_step(&image, |task| {
        task.place = 2;
        task.mail.extend(mail([(7, 2, 102)]));
    });
}

#[test]
fn the_senders_label_is_checked_ahead_of_the_target() {
    for to in [2, 3, 16] {
        let mut image = about_to_send(to);
        image.task(2).label = 8;
        assert_step(&image, |task| task.kind = 4);
    }
}

#[test]
fn a_child_runs_in_the_same_round() {
    let mut image = about_to([0xB, 1, 2, 1]);
    image.task(2).spare = 1;
    let mut expected = image.clone();
    expected.turn_slot = 4;
    let parent = expected.task(2);
    (parent.spare, parent.place, parent.registers[1]) = (0, 2, 3);
    let registers = [2, 0, 0, 0, 0, 0, 0, 0];
    expected.slots[3] = Some(Task { kind: 2, label: 5, place: 2, registers, ..Task::default() });
    assert_after(&image, 2, &expected, 2);
}
