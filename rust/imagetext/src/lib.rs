//! Turns a text that describes tasks into the bytes of an image. docs/TASKS.md says how the text is written.
//!
//! The library assembles the program and judges it; of the rest only the form is checked. Whether the monitor accepts the
//! image is the monitor's answer.

#![forbid(unsafe_code)]

mod image;
mod line;
mod program;
mod section;
mod task;

pub use image::image;
pub use line::Fault;
