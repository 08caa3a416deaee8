//! Runs the examples of a documentation page through the monitor and compares what the page says.
//!
//! An example is a fenced block with the word `example`: an image as text, then `listing` and the lines that the lister gives
//! of its program, if the page shows them, and then steps, each after so many turns in all.
//! A step is a post of the host's or a sheet. A post is a line `after N turns, post VALUE with label L to slot S: TOLD`, with
//! what the host is told: `delivered`, `dropped`, or `refused` and the number. A sheet is a line `after N turns, observer V`,
//! the lines that the monitor gives for it (or `refused` and the number), and any number of lines `register R of slot S is
//! VALUE` and `instruction P is WORD A B C`, about the registers and the program in the observer's view.
//! Behind these, a line `on the desk of observer V` begins the desk of an owner who received the observer's view of the image
//! as it was at the start: the steps behind the line are those of this view, whose turns begin again at 0. There may be
//! several desks.

#![forbid(unsafe_code)]

mod block;
mod compare;
mod example;

pub use compare::{compare, Compared};
