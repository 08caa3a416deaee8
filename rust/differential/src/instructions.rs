//! Operand bytes within and outside their ranges.

use crate::rng::Rng;
use layout::instructions::Operand;

/// A byte that is legal in a program of `n` instructions.
pub fn legal(rng: &mut Rng, operand: Operand, n: usize) -> u8 {
    let (first, last) = operand.range(n);
    rng.between(first.into(), last.into()) as u8
}

/// A byte that is not legal, most often the nearest one; none where every byte is legal.
pub fn illegal(rng: &mut Rng, operand: Operand, n: usize) -> Option<u8> {
    let (first, last) = operand.range(n);
    let above = last.checked_add(1).map(|near| if rng.one_in(3) { rng.between(near.into(), 255) as u8 } else { near });
    let below = first.checked_sub(1);
    if rng.one_in(2) {
        above.or(below)
    } else {
        below.or(above)
    }
}
