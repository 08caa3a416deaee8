//! The test program `lookprobe`, run as a process: what the count of a label's messages tells of made-up mailboxes, beside
//! what the reference interpreter says that it tells.

use crate::damage::FAULTS;
use crate::images::{self, MAIL_MAX, MAIL_PER_LABEL};
use crate::mailboxes::{mailboxes, IMAGES, ROUND};
use crate::process;
use crate::report::{hex, Mismatch};
use crate::rng::Rng;
use crate::versions::ByVersion;
use layout::{SLOTS, VERSIONS};
use std::ffi::OsStr;
use std::fmt;

/// Images of the usual kind, with unused slots.
const USUAL: u64 = 20;

/// Seeds within which each fault finds its place.
const SEEDS: u64 = 20;

/// The least number of accepted images of each version.
const ACCEPTED_MIN: u64 = 100;

/// The least number of refused ones: each fault in each version, but for the two of clearances, which version 1 has not.
const REFUSED_MIN: u64 = (VERSIONS.len() * FAULTS.len() - 2) as u64;

/// Counts of what was told, by how many messages were looked at: where there was room, and where the fourth was met.
pub struct LooksTally {
    room: [u64; MAIL_MAX + 1],
    fourth: [u64; MAIL_MAX + 1],
    unused: u64,
    accepted: ByVersion,
    refused: u64,
}

/// Every input: images with mailboxes of every length, usual ones, and one with each fault.
pub fn inputs() -> impl Iterator<Item = Vec<u8>> {
    let usual = (0..USUAL).map(|seed| images::accepted(&mut Rng::new(seed)));
    (0..IMAGES).map(mailboxes).chain(usual).map(|image| image.bytes()).chain(refused())
}

/// Runs the program on an input.
pub fn run(tally: &mut LooksTally, program: &OsStr, input: &[u8]) -> Result<(), Mismatch> {
    let printed = process::print(program, input)?;
    let expected = reference::looks(input);
    if printed != expected {
        let [printed, expected] = [printed, expected].map(|bytes| hex(&bytes));
        return Err(Mismatch(format!("lookprobe, input {}\nprints\n{printed}\nnot\n{expected}", hex(input))));
    }
    match printed.is_empty() {
        true => tally.refused += 1,
        false => tally.accepted.note(input[0]),
    }
    for told in printed.chunks_exact(2) {
        match (told[0], told[1]) {
            (0, 0) => tally.unused += 1,
            (0, looked) => tally.fourth[usize::from(looked)] += 1,
            (_, looked) => tally.room[usize::from(looked)] += 1,
        }
    }
    Ok(())
}

/// Images of both versions with each fault, of which nothing is told. The first mailbox is full and the others nearly empty,
/// so that there is a place for each fault.
fn refused() -> impl Iterator<Item = Vec<u8>> {
    let images = (0..VERSIONS.len()).map(|round| mailboxes(MAIL_MAX / SLOTS + round * ROUND));
    images.flat_map(|image| {
        FAULTS.iter().filter_map(move |fault| {
            (0..SEEDS).find_map(|seed| {
                let mut image = image.clone();
                (fault.apply)(&mut Rng::new(seed), &mut image).then(|| image.bytes())
            })
        })
    })
}

impl Default for LooksTally {
    fn default() -> LooksTally {
        let counts = [0; MAIL_MAX + 1];
        LooksTally { room: counts, fourth: counts, unused: 0, accepted: ByVersion::default(), refused: 0 }
    }
}

impl LooksTally {
    /// What is missing for the run to count: every number that may be told. A full mailbox has room for no label.
    pub fn shortfalls(&self) -> Vec<String> {
        let never = |what: &str| format!("lookprobe never told {what}");
        let room = (0..MAIL_MAX).filter(|&looked| self.room[looked] == 0);
        let fourth = (MAIL_PER_LABEL..=MAIL_MAX).filter(|&looked| self.fourth[looked] == 0);
        let unused = (self.unused == 0).then(|| never("of an unused slot"));
        let accepted = self.accepted.shortfalls("lookprobe, accepted images", ACCEPTED_MIN);
        let refused = (self.refused < REFUSED_MIN).then(|| never("nothing, for each fault"));
        room.map(|looked| never(&format!("room after {looked} messages")))
            .chain(fourth.map(|looked| never(&format!("the fourth after {looked} messages"))))
            .chain(unused)
            .chain(accepted)
            .chain(refused)
            .collect()
    }
}

impl fmt::Display for LooksTally {
    fn fmt(&self, f: &mut fmt::Formatter<'_>) -> fmt::Result {
        let [room, fourth] = [self.room, self.fourth].map(|counts| counts.iter().sum::<u64>());
        let LooksTally { accepted, refused, .. } = self;
        write!(
            f,
            "lookprobe: room {room}, the fourth met {fourth} in images, {accepted}; in {refused} refused ones nothing"
        )
    }
}
