//! Compares the monitor with the reference interpreter on made-up images, texts and programs, and tries the secrecy
//! rule and the laws of desks on both.

#![forbid(unsafe_code)]

pub mod alike;
pub mod arguments;
pub mod backlogs;
pub mod calls;
pub mod cases;
mod ceilings;
pub mod compare;
pub mod damage;
pub mod desk_cases;
mod desk_facts;
mod desk_laws;
pub mod desk_report;
pub mod desks;
pub mod images;
pub mod instructions;
pub mod listings;
pub mod lists;
pub mod looks;
pub mod mailboxes;
pub mod numbers;
pub mod observers;
pub mod pairs;
pub mod posts;
mod process;
pub mod programs;
pub mod raises;
pub mod report;
pub mod rng;
pub mod runs;
pub mod secrecy;
mod secrecy_facts;
pub mod secrecy_report;
pub mod slotsheet;
pub mod text_cases;
pub mod text_damage;
mod text_sweeps;
pub mod texts;
mod versions;
