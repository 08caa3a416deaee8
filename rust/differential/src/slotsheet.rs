//! The program `slotsheet`, run as a process: what it prints beside what the reference interpreter says that it prints.

use crate::damage::FAULTS;
use crate::images;
use crate::process;
use crate::report::{hex, Mismatch, NUMBERS};
use crate::rng::Rng;
use crate::versions::ByVersion;
use layout::VERSIONS;
use std::ffi::OsStr;
use std::fmt;

/// The longest input that is not refused for its length.
const INPUT_MAX: usize = 8_192;

/// Inputs made of seeds, beside those of a limit's length.
const SEEDS: u64 = 600;

/// The least number of inputs of each version that print a sheet, and of those that print kind 6.
const SHEETS_MIN: u64 = 100;
const KIND_6_MIN: u64 = 10;

/// The numbers that `slotsheet` may print behind `refused`.
const REFUSALS: [usize; 11] = [1, 3, 4, 5, 6, 7, 8, 9, 10, 11, 12];

/// Counts of the inputs: refused ones by the number printed, and those that print a sheet.
#[derive(Default)]
pub struct SlotsheetTally {
    refused: [u64; NUMBERS],
    sheets: ByVersion,
    kind_6: u64,
}

/// Every input.
pub fn inputs() -> impl Iterator<Item = Vec<u8>> {
    (0..SEEDS).map(made_up).chain(of_limits())
}

/// Runs the program on an input.
pub fn run(tally: &mut SlotsheetTally, program: &OsStr, input: &[u8]) -> Result<(), Mismatch> {
    let printed = process::print(program, input)?;
    let expected = reference::slotsheet(input);
    let text = |bytes: &[u8]| String::from_utf8_lossy(bytes).into_owned();
    if printed != expected {
        let (printed, expected) = (text(&printed), text(&expected));
        return Err(Mismatch(format!("slotsheet, input {}\nprints\n{printed}not\n{expected}", hex(input))));
    }
    let printed = text(&printed);
    match printed.strip_prefix("refused ").and_then(|number| number.trim().parse::<usize>().ok()) {
        Some(number) => tally.refused[number] += 1,
        None => {
            tally.sheets.note(input[1]);
            tally.kind_6 += u64::from(printed.lines().any(|line| line.split(' ').nth(1) == Some("6")));
        }
    }
    Ok(())
}

/// An observer and an image, which every other time has a fault, each in its turn.
fn made_up(seed: u64) -> Vec<u8> {
    let rng = &mut Rng::new(seed);
    let mut image = images::accepted(rng);
    if seed % 2 == 1 {
        let fault = &FAULTS[(seed / 2 % FAULTS.len() as u64) as usize];
        (fault.apply)(rng, &mut image);
    }
    let observer = match rng.below(12) {
        0 => rng.pick(&[16, 17, 128, 255]),
        1..=5 => 15,
        _ => rng.byte_below(16),
    };
    [vec![observer], image.bytes()].concat()
}

/// No bytes, an observer alone, the longest images, and inputs about as long as the buffer.
fn of_limits() -> Vec<Vec<u8>> {
    let mut inputs = vec![vec![], vec![0], vec![15], vec![16], vec![255]];
    for version in VERSIONS {
        let image = images::longest(&mut Rng::new(0), version).bytes();
        for length in [image.len() + 1, INPUT_MAX - 1, INPUT_MAX, INPUT_MAX + 1, 2 * INPUT_MAX] {
            for (observer, first_byte) in [(0, version), (0, 0), (15, version), (16, version)] {
                let mut input = [&[observer, first_byte], &image[1..]].concat();
                input.resize(length, 0);
                inputs.push(input);
            }
        }
    }
    inputs
}

impl SlotsheetTally {
    /// What is missing for the run to count.
    pub fn shortfalls(&self) -> Vec<String> {
        let sheets = self.sheets.shortfalls("slotsheet, sheets", SHEETS_MIN);
        let kind_6 =
            (self.kind_6 < KIND_6_MIN).then(|| format!("slotsheet: fewer than {KIND_6_MIN} sheets with kind 6"));
        let refusals = REFUSALS.into_iter().filter(|&number| self.refused[number] == 0);
        let refusals = refusals.map(|number| format!("slotsheet never printed refused {number}"));
        sheets.chain(kind_6).chain(refusals).collect()
    }
}

impl fmt::Display for SlotsheetTally {
    fn fmt(&self, f: &mut fmt::Formatter<'_>) -> fmt::Result {
        let refusals: u64 = self.refused.iter().sum();
        write!(f, "slotsheet: sheets {}, {} with kind 6, refusals {refusals}", self.sheets, self.kind_6)
    }
}
