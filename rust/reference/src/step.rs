//! The step rules: what a turn does.

use crate::image::{Image, Tasks};
use crate::instruction::{Instruction, Register, Target};
use crate::label::Label;
use crate::mailbox::{Mailbox, Message};
use crate::slot::Slot;
use crate::task::{Kind, Registers, Task};

/// The effect of an instruction on the task's place, and what of it reaches beyond the task.
enum Effect {
    Next,
    Jump(u16),
    Wait,
    Stop(Kind),
    Deliver { to: u32, message: Message },
    Spawn { child: Slot, start: Target, size: u8 },
}

/// Carries out `count` turns and tells how many met a live task.
pub fn run(image: &mut Image<'_>, count: u64) -> u64 {
    let mut busy = 0;
    for _ in 0..count {
        busy += u64::from(turn(image));
    }
    busy
}

/// Carries out one turn and tells whether it met a live task.
fn turn(image: &mut Image<'_>) -> bool {
    let slot = image.turn_slot;
    image.turn_slot = slot.successor();
    let Some(task) = image.tasks[slot.index()].as_mut().filter(|task| task.is_live()) else {
        return false;
    };
    let effect = match image.program.get(usize::from(task.place)) {
        Some(&instruction) => task.execute(instruction, slot),
        None => Effect::Stop(Kind::RanOff),
    };
    match effect {
        Effect::Next => task.place += 1,
        Effect::Jump(place) => task.place = place,
        Effect::Wait => {}
        Effect::Stop(kind) => task.kind = kind,
        Effect::Deliver { to, message } => {
            task.place += 1;
            // The sender goes on identically, delivered or dropped.
            deliver(&mut image.tasks, to, message);
        }
        Effect::Spawn { child, start, size } => {
            task.place += 1;
            image.tasks[child.index()] = Some(task.child(start, size, slot));
        }
    }
    true
}

/// Puts the message into the mailbox of a live task with room for it, else drops it; tells whether it was delivered.
pub fn deliver(tasks: &mut Tasks, to: u32, message: Message) -> bool {
    let receiver = Slot::new(to).and_then(|slot| tasks[slot.index()].as_mut());
    receiver.filter(|task| task.is_live()).is_some_and(|task| task.mailbox.push(message))
}

impl Task {
    /// Carries out an instruction as far as it concerns this task, which stands in `own`.
    fn execute(&mut self, instruction: Instruction, own: Slot) -> Effect {
        let registers = &mut self.registers;
        match instruction {
            Instruction::End => return Effect::Stop(Kind::Done),
            Instruction::Set { to, value } => registers.set(to, value.into()),
            Instruction::Copy { to, from } => registers.set(to, registers.get(from)),
            Instruction::Add { to, left, right } => {
                registers.set(to, registers.get(left).wrapping_add(registers.get(right)));
            }
            Instruction::Subtract { to, left, right } => {
                registers.set(to, registers.get(left).wrapping_sub(registers.get(right)));
            }
            Instruction::Go { target } => return Effect::Jump(target.into()),
            Instruction::Zero { tested, target } => {
                if registers.get(tested) == 0 {
                    return Effect::Jump(target.into());
                }
            }
            Instruction::Raise { label } => return self.raise(label),
            Instruction::Send { to, label, value } => return self.send(to, label, value, own),
            Instruction::Take { value, sender } => return self.take(value, sender, Effect::Wait),
            Instruction::Poll { value, sender, otherwise } => {
                return self.take(value, sender, Effect::Jump(otherwise.into()));
            }
            Instruction::Sandbox { slot, start, size } => return self.sandbox(slot, start, size, own),
            Instruction::Own { label, slot } => {
                registers.set(label, self.label.number().into());
                registers.set(slot, own.number().into());
            }
            Instruction::Count { to } => registers.set(to, self.mailbox.search(self.label).receivable),
        }
        Effect::Next
    }

    /// Joins the own label with this one, if the clearance admits what comes of it.
    fn raise(&mut self, label: Label) -> Effect {
        let raised = self.label.join(label);
        if !self.clearance.admits(raised) {
            return Effect::Stop(Kind::StoppedByClearance);
        }
        self.label = raised;
        Effect::Next
    }

    /// Checks the sender's label; what follows is the receiver's affair.
    fn send(&self, to: Register, label: Label, value: Register, own: Slot) -> Effect {
        if !self.label.flows_to(label) {
            return Effect::Stop(Kind::StoppedByLabel);
        }
        let message = Message { label, sender: own.into(), value: self.registers.get(value) };
        Effect::Deliver { to: self.registers.get(to), message }
    }

    /// Takes the oldest receivable message; `otherwise` is the effect without one.
    fn take(&mut self, value: Register, sender: Register, otherwise: Effect) -> Effect {
        let Some(message) = self.mailbox.take(self.label) else {
            return otherwise;
        };
        self.registers.set(value, message.value);
        self.registers.set(sender, message.sender.number().into());
        Effect::Next
    }

    /// The slot of a new task of this size, if the spare holds it.
    fn child_slot(&self, size: u8, own: Slot) -> Option<Slot> {
        own.plus(self.spare.checked_sub(size)? + 1)
    }

    /// Gives part of the spare to a new task.
    fn sandbox(&mut self, register: Register, start: Target, size: u8, own: Slot) -> Effect {
        let Some(slot) = self.child_slot(size, own) else {
            return Effect::Stop(Kind::WantOfSpare);
        };
        self.spare -= size;
        self.registers.set(register, slot.number().into());
        Effect::Spawn { child: slot, start, size }
    }

    /// A new task of this size, whose parent is this one, which stands in `own`.
    fn child(&self, start: Target, size: u8, own: Slot) -> Task {
        let mut registers = Registers::default();
        registers.set(Register::ZERO, own.number().into());
        Task {
            kind: Kind::Live,
            label: self.label,
            clearance: self.clearance,
            spare: size - 1,
            place: start.into(),
            registers,
            mailbox: Mailbox::new(),
        }
    }
}
