//! Wrong views that tell no secret: observers of images that look the same are shown the same.

use crate::wrong::versions::{with_records, written_as};
use crate::wrong::{right, wrong};
use differential::calls::{Answer, Call, Implementation};
use layout::records::{messages, ranges};
use layout::{next, place_at, registers_at, task_length, HOST};

/// What becomes of a view.
type Change = fn(&[u8]) -> Vec<u8>;

/// The answer to a call, with views changed; other calls are answered right.
fn changed(call: Call, image: &[u8], out: &mut [u8], change: Change) -> Answer {
    match call {
        Call::View(_) => written_as(call, image, out, change),
        _ => right(call, image, out),
    }
}

/// Moves the turn slot on.
pub fn a_turn_ahead() -> Implementation {
    wrong(|call, image, out| {
        changed(call, image, out, |view| {
            let (at, mut view) = (next::turn_slot_at(view), view.to_vec());
            view[at] = (view[at] + 1) % 16;
            view
        })
    })
}

/// Cuts every spare to 0.
pub fn without_spares() -> Implementation {
    wrong(|call, image, out| {
        changed(call, image, out, |view| {
            let mut cut = view.to_vec();
            ranges(view).filter(|task| !task.is_empty()).for_each(|task| cut[task][place_at(view[0]) - 1] = 0);
            cut
        })
    })
}

/// Leaves out the host's messages.
pub fn without_host_mail() -> Implementation {
    wrong(|call, image, out| {
        changed(call, image, out, |view| {
            let tasks_mail = |record: &[u8]| -> Vec<u8> {
                messages(view[0], record).filter(|message| message[1] != HOST).flatten().copied().collect()
            };
            with_records(view[0], view, |record| [&record[..task_length(view[0])], &tasks_mail(record)].concat())
        })
    })
}

/// Writes version 1, which has no clearances and no kind 6, in place of version 2.
pub fn without_clearances() -> Implementation {
    wrong(|call, image, out| {
        changed(call, image, out, |view| match view[0] {
            2 => with_records(1, view, |record| [&[record[0].min(5), record[1]], &record[3..]].concat()),
            _ => view.to_vec(),
        })
    })
}

/// Shows those who may see owner 0's figures no registers of stopped tasks.
pub fn without_last_figures() -> Implementation {
    wrong(|call, image, out| match call {
        Call::View(observer) if observer % 2 == 1 => changed(call, image, out, |view| {
            let mut blank = view.to_vec();
            let stopped = ranges(view).filter(|task| view[task.clone()].first().is_some_and(|&kind| kind != 1));
            let registers = registers_at(view[0])..task_length(view[0]);
            stopped.for_each(|task| blank[task][registers.clone()].fill(0));
            blank
        }),
        _ => right(call, image, out),
    })
}

/// All of them.
pub fn all() -> [Implementation; 5] {
    [a_turn_ahead(), without_spares(), without_host_mail(), without_clearances(), without_last_figures()]
}
