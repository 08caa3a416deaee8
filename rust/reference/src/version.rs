//! The versions of an image and what they differ in.

/// The bytes of a record without clearance and messages.
const TASK_LENGTH: usize = 37;

/// The bytes of a clearance.
const CLEARANCE_LENGTH: usize = 1;

/// The version of an image; the value is the byte at its front.
#[derive(Debug, Clone, Copy, PartialEq, Eq)]
pub enum Version {
    One = 1,
    Two = 2,
}

impl Version {
    /// The version that this byte stands for.
    pub fn new(byte: u8) -> Option<Version> {
        [Version::One, Version::Two].into_iter().find(|&version| version as u8 == byte)
    }

    /// Whether records hold a clearance; kind 6, which it brings about, is in the same versions only.
    pub fn has_clearance(self) -> bool {
        match self {
            Version::One => false,
            Version::Two => true,
        }
    }

    /// The bytes of a record without messages.
    pub fn task_length(self) -> usize {
        TASK_LENGTH + if self.has_clearance() { CLEARANCE_LENGTH } else { 0 }
    }
}
