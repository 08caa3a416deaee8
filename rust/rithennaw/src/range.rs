//! The error of a number that a type does not take.

use std::{error, fmt};

/// A number that is no [`Label`](crate::Label), or no number of a [`Refusal`](crate::Refusal).
#[derive(Debug, Clone, Copy, PartialEq, Eq)]
pub struct OutOfRange {
    pub(crate) number: u8,
    pub(crate) first: u8,
    pub(crate) last: u8,
}

impl fmt::Display for OutOfRange {
    fn fmt(&self, f: &mut fmt::Formatter<'_>) -> fmt::Result {
        write!(f, "{} is not from {} to {}", self.number, self.first, self.last)
    }
}

impl error::Error for OutOfRange {}
