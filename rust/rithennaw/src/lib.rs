//! Safe calls to Rithennaw, a monitor that planning software embeds.
//!
//! Several owners' tasks run side by side. Each task has a [`Label`], the set of owners whose figures it may have
//! touched. The monitor takes an image of all tasks as bytes, runs [`turns`], puts the host's own messages into mailboxes
//! ([`post`]), and gives each observer a [`view`] or a [`sheet`]. The program that the tasks run is typed as text:
//! [`assemble`] turns it into bytes, and [`disassemble`] lists it again. What an image means, what a turn and a post do, what
//! a view shows and which bytes a text stands for is proved; this crate hands slices to the archive `librithennaw.a` and adds
//! nothing. The crate itself is tested and not proved.
//!
//! Every call takes any bytes and any numbers, so the caller checks nothing beforehand: what cannot be taken is
//! refused with a [`Refusal`], and a refused call writes nothing. No call panics, whatever it is given. Nothing is
//! kept between calls, and any number of threads may call at a time. The stack that a call needs is `RITHENNAW_STACK`
//! of include/rithennaw.h.
//!
//! # Build
//!
//! Depend on the crate by its path. `make lib`, at the root of the repository, builds the archive where the crate
//! looks for it; an archive elsewhere is found by the environment variable `RITHENNAW_LIB_DIR`, which names its
//! folder.
//!
//! # Example
//!
//! Two tasks: slot 0 has touched owner 0's figures (label 1) and sends 700 to slot 1, which is public (label 0).
//! Owner 0 is shown the task and its message. Owner 1 is shown neither. Then the host posts 21 to slot 1, for owner 0 too.
//!
//! ```
//! use rithennaw::{post, record, sheet, turns, view, Label, Refusal, HOST};
//!
//! // A record without mail: kind 1 (live), label, spare 0, place, registers 0 to 7.
//! fn task(label: u8, place: u8, registers: [u32; 8]) -> Vec<u8> {
//!     let mut record = vec![0, 37, 1, label, 0, 0, place];
//!     record.extend(registers.iter().flat_map(|register| register.to_be_bytes()));
//!     record
//! }
//!
//! // Version 1; 8 bytes of program: send (slot in register 1, label 1, value in register 2), end; turn slot 0.
//! let mut image = vec![1, 0, 8, 0x08, 1, 1, 2, 0x00, 0, 0, 0, 0];
//! image.extend(task(1, 0, [0, 1, 700, 0, 0, 0, 0, 0]));
//! image.extend(task(0, 1, [0; 8]));
//! image.extend([0, 0].repeat(14)); // slots 2 to 15 are unused
//!
//! let after = turns(&image, 1)?;
//! assert_eq!(after.busy, 1);
//! assert_eq!(record(&after.image, 1)[37..], [1, 0, 0, 0, 0x02, 0xbc]); // label 1, sender 0, value 700
//!
//! let [owner_0, owner_1, ..] = Label::OWNERS;
//! assert_eq!(view(&after.image, owner_0)?, after.image);
//! let shown = view(&after.image, owner_1)?;
//! assert_eq!(record(&shown, 0), []);
//! assert_eq!(record(&shown, 1), [&[1, 0, 0, 0, 1], &[0; 32][..]].concat());
//!
//! assert_eq!(sheet(&after.image, owner_0)?, b"slot kind label spare pc mail\n0 1 1 0 1 0\n1 1 0 0 1 1\n");
//! assert_eq!(sheet(&after.image, owner_1)?, b"slot kind label spare pc mail\n1 1 0 0 1 0\n");
//! assert_eq!(sheet(&after.image, 16), Err(Refusal::Observer));
//!
//! let posted = post(&after.image, 1, owner_0, 21)?;
//! assert!(posted.delivered);
//! assert_eq!(record(&posted.image, 1)[43..], [1, HOST, 0, 0, 0, 21]); // behind the other message
//! assert_eq!(view(&posted.image, owner_1)?, shown);
//! # Ok::<(), Refusal>(())
//! ```
//!
//! A ceiling. In an image of version 2 each task has a clearance behind its label, the owners whose figures it may ever
//! touch. A raise that would leave it stops the task with kind 6 and changes nothing else.
//!
//! ```
//! use rithennaw::{check, record, turns, Refusal};
//!
//! // Version 2; raise by owner 1 (label 2), end; turn slot 0. Slot 0: kind 1, label 1, the clearance, all else 0.
//! let image = |clearance: u8| {
//!     let ahead = [2, 0, 8, 0x07, 2, 0, 0, 0x00, 0, 0, 0, 0];
//!     [&ahead[..], &[0, 38, 1, 1, clearance], &[0; 35], &[0; 15 * 2]].concat()
//! };
//! assert_eq!(record(&turns(&image(3), 1)?.image, 0)[..3], [1, 3, 3]); // the label is 3
//! assert_eq!(record(&turns(&image(5), 1)?.image, 0)[..3], [6, 1, 5]); // stopped, with label 1
//! assert_eq!(check(&image(2)), Err(Refusal::TaskField)); // label 1 isn't within clearance 2
//! # Ok::<(), Refusal>(())
//! ```
//!
//! The first example's program as text. A line has the word of an instruction and three numbers, and always a line feed.
//!
//! ```
//! use rithennaw::{assemble, disassemble, Refusal};
//!
//! let text = "send 1 1 2\nend 0 0 0\n";
//! let program = assemble(text)?;
//! assert_eq!(program, [0x08, 1, 1, 2, 0x00, 0, 0, 0]);
//! assert_eq!(disassemble(&program)?, text);
//!
//! assert_eq!(assemble("send 1 1 2\nend 0 0 0"), Err(Refusal::Text)); // the last line feed is missing
//! assert_eq!(assemble("send 1 01 2\n"), Err(Refusal::Text)); // a leading zero
//! assert_eq!(assemble("send 1 16 2\n"), Err(Refusal::Instruction)); // there is no label 16
//! assert_eq!(assemble(""), Err(Refusal::ProgramLength)); // no line; there may be 256
//! # Ok::<(), Refusal>(())
//! ```

#![deny(missing_docs, unsafe_code, unsafe_op_in_unsafe_fn)]

mod argument;
mod calls;
#[allow(unsafe_code)]
mod ffi;
mod label;
mod range;
mod refusal;

pub use argument::{MessageLabel, Observer, Slot};
pub use calls::{
    assemble, assemble_into, check, disassemble, disassemble_into, post, post_into, record, record_range, rewrite,
    rewrite_into, sheet, sheet_into, turns, turns_into, view, view_into, Posted, PostedInto, Turned, TurnedInto,
};
pub use label::Label;
pub use range::OutOfRange;
pub use refusal::Refusal;

/// The length of the shortest image.
pub const IMAGE_MIN: usize = 40;

/// The length of the longest image. A buffer of this length is long enough for every call.
pub const IMAGE_MAX: usize = 7812;

/// A buffer of this length is long enough for every sheet.
pub const SHEET_MAX: usize = 318;

/// The length of the longest program, 256 instructions. A buffer of this length is long enough for every text that is
/// assembled.
pub const PROGRAM_MAX: usize = 1024;

/// The length of the longest listing, 256 lines of 17 bytes. A buffer of this length is long enough for every program that is
/// disassembled.
pub const LISTING_MAX: usize = 4352;

/// The most turns in one call.
pub const TURNS_MAX: u64 = 1_000_000;

/// The sender of a posted message: the host, who stands in no slot. A task that receives the message is told this number.
pub const HOST: u8 = 16;
