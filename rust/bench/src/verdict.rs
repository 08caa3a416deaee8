//! Holds the ratios of all layouts to an aim.

use crate::figure::Figure;
use crate::spread::Spread;

/// The times of a case or a call over all layouts, each in its unit, and whether the worst ratio meets the aim.
#[derive(Debug)]
pub struct Verdict {
    pub monitor: Spread,
    pub reference: Spread,
    /// Of each layout's own best times.
    pub ratio: Spread,
    pub aim: f64,
}

impl Verdict {
    /// The nanoseconds of a figure are divided by `unit`.
    pub fn new(figures: &[Figure], unit: f64, aim: f64) -> Verdict {
        let [monitor, reference] =
            [0, 1].map(|i| Spread::of(figures.iter().map(|figure| figure.times[i] as f64 / unit)));
        Verdict { monitor, reference, ratio: Spread::of(figures.iter().map(Figure::ratio)), aim }
    }

    pub fn is_met(&self) -> bool {
        self.ratio.most <= self.aim
    }

    /// The columns that all tables of times end with.
    pub fn columns(&self) -> String {
        let Verdict { monitor, reference, ratio, aim } = self;
        let met = if self.is_met() { "met" } else { "MISSED" };
        format!("{monitor:>14} {reference:>14} {ratio:>12} {aim:>4.1} {met:>6}")
    }

    /// The heads of these columns.
    pub fn heads() -> String {
        format!("{:>14} {:>14} {:>12} {:>4} {:>6}", "monitor", "reference", "ratio", "aim", "")
    }
}

#[cfg(test)]
mod tests {
    use super::{Figure, Spread, Verdict};

    fn verdict(aim: f64) -> Verdict {
        let figures = [[300, 200], [100, 50], [250, 250]].map(|times| Figure { facts: [0, 0], times });
        Verdict::new(&figures, 10.0, aim)
    }

    #[test]
    fn each_layout_has_its_own_ratio() {
        let verdict = verdict(2.0);
        assert_eq!(verdict.monitor, Spread { least: 10.0, most: 30.0 });
        assert_eq!(verdict.reference, Spread { least: 5.0, most: 25.0 });
        assert_eq!(verdict.ratio, Spread { least: 1.0, most: 2.0 });
    }

    #[test]
    fn the_worst_ratio_has_to_meet_the_aim() {
        assert!(verdict(2.0).is_met());
        assert!(!verdict(1.99).is_met());
        assert!(verdict(1.99).columns().ends_with("MISSED"));
        assert!(verdict(2.0).columns().ends_with("met"));
    }

    #[test]
    fn heads_are_as_wide_as_their_columns() {
        assert_eq!(Verdict::heads().len(), verdict(2.0).columns().len());
    }
}
