//! Numbers as they are typed: with leading zeros, above 255, and so long that no machine number holds them.

use crate::rng::Rng;

/// The widths of machine numbers, in bits, but for 128.
const WIDTHS: [u32; 4] = [8, 16, 32, 64];

/// The digits of 2 to the power 128 but for the last three, which are 456.
const POWER_128: &str = "340282366920938463463374607431768211";

/// Numbers above 255 that are this byte once they are cut to the bits of a machine number.
pub fn cut_to(byte: u8) -> Vec<String> {
    let byte = u128::from(byte);
    let sums = multiples().map(|multiple| (multiple + byte).to_string());
    sums.chain([format!("{POWER_128}{}", 456 + byte)]).collect()
}

/// Numbers just below those that are 0 once they are cut, and just above those that are 255.
pub fn beside_cut() -> Vec<String> {
    let beside = multiples().flat_map(|multiple| [multiple - 2, multiple - 1, multiple + 256, multiple + 257]);
    beside.map(|number| number.to_string()).collect()
}

/// The first multiples of the powers of two that machine numbers wrap at.
fn multiples() -> impl Iterator<Item = u128> {
    WIDTHS.into_iter().flat_map(|width| (1..=3).map(move |multiple| multiple << width))
}

/// Numbers of every length up to 40 digits, and of about as many as a byte counts.
pub fn of_each_length(rng: &mut Rng) -> Vec<String> {
    (1..=40).chain(254..=260).map(|length| of_length(rng, length)).collect()
}

/// A number of that many digits, the first of them not 0.
fn of_length(rng: &mut Rng, length: usize) -> String {
    let digits = (0..length).map(|at| rng.between(usize::from(at == 0), 9).to_string());
    digits.collect()
}

/// The number behind zeros, one or many.
pub fn behind_zeros(rng: &mut Rng, number: &str) -> String {
    let zeros = rng.pick(&[1, 1, 2, 3, 37, 253, 256]);
    "0".repeat(zeros) + number
}

/// A number above 255.
pub fn above_255(rng: &mut Rng) -> String {
    match rng.below(4) {
        0 => rng.between(256, 260).to_string(),
        1 => rng.between(256, 2_000).to_string(),
        2 => {
            let numbers = cut_to(rng.byte_below(256));
            numbers[rng.below(numbers.len())].clone()
        }
        _ => {
            let length = rng.between(4, 40);
            of_length(rng, length)
        }
    }
}
