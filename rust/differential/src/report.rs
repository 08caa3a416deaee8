//! What was compared, by call and number: the table that is printed, and the least that there must be.

use crate::calls::{Answer, Call, Post};
use crate::posts::PostOutcome;
use layout::VERSIONS;
use std::fmt;

/// The least number of calls in a run.
const CALLS_MIN: u64 = 400_000;

/// The least number of calls with each number that a call may tell, and of records and posts with each outcome.
const EACH_MIN: u64 = 100;

/// A call with at least so many busy turns is a long run.
const LONG_RUN: u64 = 100_000;

/// Whether a call may tell a number.
type MayTell = fn(usize) -> bool;

/// The calls that tell a number, the check by the version of its image.
const CALLS: [(&str, MayTell); 10] = [
    ("rewrite", |number| matches!(number, 0 | 3..=13)),
    ("turns", |number| matches!(number, 0 | 2..=13)),
    ("post", |number| matches!(number, 0 | 3..=15)),
    ("view", |number| matches!(number, 0 | 1 | 3..=13)),
    ("sheet", |number| matches!(number, 0 | 1 | 3..=13)),
    ("check-v1", |number| matches!(number, 0 | 3 | 5..=12)),
    ("check-v2", |number| matches!(number, 0 | 3 | 5..=12)),
    ("check-other", |number| matches!(number, 3 | 4)),
    ("assemble", |number| matches!(number, 0 | 5 | 6 | 13 | 16)),
    ("disassemble", |number| matches!(number, 0 | 5 | 6 | 13)),
];

/// The place of the first check, which is no call that writes; behind those of the versions is that of all other images.
const CHECK: usize = 5;

/// The numbers that there are: 0 to 16.
pub const NUMBERS: usize = 17;

/// A difference: all that is known of it.
#[derive(Debug)]
pub struct Mismatch(pub String);

/// What comparing gives: the first difference, if there is one.
pub type Outcome = Result<(), Mismatch>;

impl fmt::Display for Mismatch {
    fn fmt(&self, f: &mut fmt::Formatter<'_>) -> fmt::Result {
        self.0.fmt(f)
    }
}

/// What is counted of calls beside their numbers.
#[derive(Debug, Clone, Copy)]
pub enum Fact {
    NoTurns,
    OneRound,
    Rounds,
    ManyRounds,
    MostTurns,
    LongRun,
    JustEnough,
    ByteTooShort,
    SlotAndLabelAbove15,
    StoppedByClearance,
    RaisedWithinClearance,
    ChildWithClearance,
    NoLine,
    Lines256,
    Lines257,
    LegalOnceCut,
    LegalBehindZeros,
    TextGivenBack,
    ProgramGivenBack,
}

/// The words for each fact, and the least number of calls of which it holds.
const FACTS: [(&str, u64); 19] = [
    ("0 turns", 100),
    ("1 to 16 turns", 100),
    ("17 to 999 turns", 100),
    ("1,000 to 999,998 turns", 100),
    ("999,999 or 1,000,000 turns", 40),
    ("100,000 or more busy turns", 20),
    ("output just long enough", 100),
    ("output a byte too short", 100),
    ("post with slot and label above 15", 100),
    ("task stopped by its clearance", 1_000),
    ("label raised within a clearance below 15", 500),
    ("task made with a clearance below 15", 500),
    ("text of no line", 100),
    ("text of 256 lines accepted", 100),
    ("text of 257 lines", 100),
    ("number above 255 that is legal once cut to 8 to 128 bits", 1_000),
    ("leading zeros ahead of a legal number", 1_000),
    ("text turned into its program and back", 1_000),
    ("program turned into its text and back", 1_000),
];

/// What a record's part was, and why it was empty.
#[derive(Debug, Clone, Copy)]
pub enum RecordOutcome {
    Found,
    UnusedSlot,
    SlotAbove15,
    RefusedImage,
}

const RECORD_OUTCOMES: [&str; 4] = ["found", "unused slot", "slot above 15", "refused image"];

/// The words for each `PostOutcome`.
const POST_OUTCOMES: [&str; 5] = [
    "delivered",
    "dropped at an unused slot",
    "dropped at a stopped task",
    "dropped at a task stopped by its clearance",
    "dropped behind four of its label",
];

/// Counts of the calls that were compared.
#[derive(Default)]
pub struct Tally {
    calls: [[u64; NUMBERS]; CALLS.len()],
    records: [u64; RECORD_OUTCOMES.len()],
    posts: [u64; POST_OUTCOMES.len()],
    facts: [u64; FACTS.len()],
    /// All calls that were compared, those that differ included.
    pub compared: u64,
}

impl Tally {
    /// Counts a call that writes in which the two agreed, by what they told.
    pub fn call(&mut self, call: Call, answer: Answer) {
        let row = match call {
            Call::Rewrite => 0,
            Call::Turns(_) => 1,
            Call::Post(_) => 2,
            Call::View(_) => 3,
            Call::Sheet(_) => 4,
            Call::Assemble => 8,
            Call::Disassemble => 9,
        };
        self.calls[row][usize::from(answer.number)] += 1;
        match (call, answer.number) {
            (Call::Turns(count), 0) => self.fact(match count {
                0 => Fact::NoTurns,
                1..=16 => Fact::OneRound,
                17..=999 => Fact::Rounds,
                1_000..=999_998 => Fact::ManyRounds,
                _ => Fact::MostTurns,
            }),
            (Call::Post(Post { slot: 16.., label: 16.., .. }), _) => self.fact(Fact::SlotAndLabelAbove15),
            _ => {}
        }
        if answer.busy >= LONG_RUN {
            self.fact(Fact::LongRun);
        }
    }

    /// Counts a check on which the two agreed, by the image's version and the number that they told.
    pub fn check(&mut self, image: &[u8], number: u8) {
        let version = VERSIONS.iter().position(|version| image.first() == Some(version));
        self.calls[CHECK + version.unwrap_or(VERSIONS.len())][usize::from(number)] += 1;
    }

    /// Counts a call of which that holds.
    pub fn fact(&mut self, fact: Fact) {
        self.facts[fact as usize] += 1;
    }

    /// Counts a record on which the two agreed.
    pub fn record(&mut self, outcome: RecordOutcome) {
        self.records[outcome as usize] += 1;
    }

    /// Counts an accepted post on which the two agreed.
    pub fn post(&mut self, outcome: PostOutcome) {
        self.posts[outcome as usize] += 1;
    }

    /// What is missing for the run to count, or is there and may not be.
    pub fn shortfalls(&self) -> Vec<String> {
        let total = (self.compared < CALLS_MIN).then(|| format!("fewer than {CALLS_MIN} calls"));
        let facts = FACTS.iter().zip(self.facts).filter(|&((_, least), count)| count < *least);
        let facts = facts.map(|((name, least), _)| format!("{name}: fewer than {least} calls"));
        let cells = CALLS.iter().zip(&self.calls).flat_map(|(&(name, may_tell), counts)| {
            counts.iter().enumerate().filter_map(move |(number, &count)| match may_tell(number) {
                true if count < EACH_MIN => Some(format!("{name} told {number} in fewer than {EACH_MIN} calls")),
                false if count > 0 => Some(format!("{name} told {number}, which it never may")),
                _ => None,
            })
        });
        let records = few("record", &RECORD_OUTCOMES, &self.records);
        let posts = few("post", &POST_OUTCOMES, &self.posts);
        total.into_iter().chain(facts).chain(cells).chain(records).chain(posts).collect()
    }
}

/// The outcomes of a call that came too seldom.
fn few<'a>(call: &'a str, outcomes: &'a [&str], counts: &'a [u64]) -> impl Iterator<Item = String> + 'a {
    let seldom = outcomes.iter().zip(counts).filter(|&(_, &count)| count < EACH_MIN);
    seldom.map(move |(outcome, _)| format!("{call}, {outcome}: fewer than {EACH_MIN} calls"))
}

impl fmt::Display for Tally {
    fn fmt(&self, f: &mut fmt::Formatter<'_>) -> fmt::Result {
        write!(f, "number")?;
        // A count has up to seven digits, in the columns of short names.
        let columns = CALLS.map(|(name, _)| (name, 2 + name.len().max(7)));
        columns.iter().try_for_each(|(name, width)| write!(f, "{name:>width$}"))?;
        for number in 0..NUMBERS {
            write!(f, "\n{number:>6}")?;
            let counts = self.calls.iter().map(|counts| counts[number]);
            columns.iter().zip(counts).try_for_each(|((_, width), count)| write!(f, "{count:>width$}"))?;
        }
        write!(f, "\nrecord: {}", list(&RECORD_OUTCOMES, &self.records))?;
        write!(f, "\npost: {}", list(&POST_OUTCOMES, &self.posts))?;
        write!(f, "\nof these: {}", list(&FACTS.map(|(name, _)| name), &self.facts))
    }
}

/// Names with their counts, in lines of up to 100 characters.
pub fn list(names: &[&str], counts: &[u64]) -> String {
    let mut lines: Vec<String> = Vec::new();
    for (name, count) in names.iter().zip(counts) {
        let item = format!("{name} {count}");
        match lines.last_mut().filter(|line| line.len() + item.len() < 98) {
            Some(line) => *line += &format!(", {item}"),
            None => lines.push(item),
        }
    }
    lines.join(",\n    ")
}

/// The bytes in hexadecimal.
pub fn hex(bytes: &[u8]) -> String {
    bytes.iter().map(|byte| format!("{byte:02x}")).collect()
}
