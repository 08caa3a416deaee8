//! A figure in several layouts: from the least to the most.

use std::fmt;

/// The least and the most of some figures.
#[derive(Debug, Clone, Copy, PartialEq)]
pub struct Spread {
    pub least: f64,
    pub most: f64,
}

impl Spread {
    pub fn of(figures: impl Iterator<Item = f64> + Clone) -> Spread {
        Spread { least: figures.clone().fold(f64::INFINITY, f64::min), most: figures.fold(0.0, f64::max) }
    }
}

impl fmt::Display for Spread {
    /// Both, with two decimals, or the one that they are.
    fn fmt(&self, f: &mut fmt::Formatter) -> fmt::Result {
        let [least, most] = [self.least, self.most].map(|figure| format!("{figure:.2}"));
        let text = if least == most { least } else { format!("{least} to {most}") };
        f.pad(&text)
    }
}

#[cfg(test)]
mod tests {
    use super::Spread;

    #[test]
    fn it_goes_from_the_least_to_the_most() {
        let spread = Spread::of([2.5, 0.75, 1.0].into_iter());
        assert_eq!(spread, Spread { least: 0.75, most: 2.5 });
        assert_eq!(format!("{spread:>14}"), "  0.75 to 2.50");
    }

    #[test]
    fn figures_that_are_printed_alike_are_printed_once() {
        assert_eq!(Spread::of([1.001, 1.004].into_iter()).to_string(), "1.00");
    }
}
