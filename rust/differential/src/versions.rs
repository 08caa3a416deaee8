//! Counts by the version of an image.

use layout::VERSIONS;
use std::fmt;

/// A count for each version.
#[derive(Default)]
pub struct ByVersion([u64; VERSIONS.len()]);

impl ByVersion {
    /// Counts one more of the version.
    pub fn note(&mut self, version: u8) {
        let known = VERSIONS.into_iter().position(|known| known == version);
        known.into_iter().for_each(|at| self.0[at] += 1);
    }

    /// The versions of which there are fewer than `least`.
    pub fn shortfalls<'a>(&'a self, what: &'a str, least: u64) -> impl Iterator<Item = String> + 'a {
        let seldom = VERSIONS.into_iter().zip(self.0).filter(move |&(_, count)| count < least);
        seldom.map(move |(version, _)| format!("{what} of version {version}: fewer than {least}"))
    }
}

impl fmt::Display for ByVersion {
    fn fmt(&self, f: &mut fmt::Formatter<'_>) -> fmt::Result {
        let counts = VERSIONS.into_iter().zip(self.0).map(|(version, count)| format!("{count} of version {version}"));
        write!(f, "{}", counts.collect::<Vec<String>>().join(", "))
    }
}
