//! What the program of one layout tells of a case or a call, as a line of four numbers.

use std::fmt;
use std::str::FromStr;

/// What came of a case or a call, and the best times.
#[derive(Debug, Clone, Copy, PartialEq, Eq)]
pub struct Figure {
    /// Mail and busy count of a case, bytes read and written of a call: alike in every layout.
    pub facts: [u64; 2],
    /// Nanoseconds of all turns or calls of a time together, the monitor's and the reference's.
    pub times: [u64; 2],
}

impl Figure {
    /// The better time of each; an error where anything else differs.
    pub fn best(self, other: Figure) -> Result<Figure, String> {
        if self.facts != other.facts {
            return Err(format!("{:?} and {:?} came of the same call", self.facts, other.facts));
        }
        Ok(Figure { times: [0, 1].map(|i| self.times[i].min(other.times[i])), ..self })
    }

    /// The monitor's time as a multiple of the reference's.
    pub fn ratio(&self) -> f64 {
        self.times[0] as f64 / self.times[1] as f64
    }
}

impl fmt::Display for Figure {
    fn fmt(&self, f: &mut fmt::Formatter) -> fmt::Result {
        let Figure { facts: [first, second], times: [monitor, reference] } = self;
        write!(f, "{first} {second} {monitor} {reference}")
    }
}

impl FromStr for Figure {
    type Err = String;

    /// Times of 0 are refused with all else: no ratio is made of them.
    fn from_str(line: &str) -> Result<Figure, String> {
        let numbers: Option<Vec<u64>> = line.split(' ').map(|word| word.parse().ok()).collect();
        match numbers.as_deref() {
            Some(&[first, second, monitor, reference]) if monitor > 0 && reference > 0 => {
                Ok(Figure { facts: [first, second], times: [monitor, reference] })
            }
            _ => Err(format!("`{line}` is not two facts and two times")),
        }
    }
}

#[cfg(test)]
mod tests {
    use super::Figure;

    const FIGURE: Figure = Figure { facts: [984, 1_000_000], times: [19_810_000, 13_500_000] };

    #[test]
    fn a_line_is_read_as_it_was_written() {
        assert_eq!(FIGURE.to_string(), "984 1000000 19810000 13500000");
        assert_eq!(FIGURE.to_string().parse(), Ok(FIGURE));
    }

    #[test]
    fn any_other_line_is_a_fault() {
        for line in ["", "1 2 3", "1 2 3 4 5", "1 2 3 x", "1 2 3 -4", "1 2  3 4", "1 2 0 4", "1 2 3 0", "1 2 3.5 4"] {
            assert!(line.parse::<Figure>().is_err(), "{line}");
        }
    }

    #[test]
    fn the_better_time_of_each_counts() {
        let other = Figure { times: [19_000_000, 14_000_000], ..FIGURE };
        let best = Figure { times: [19_000_000, 13_500_000], ..FIGURE };
        assert_eq!(FIGURE.best(other), Ok(best));
        assert_eq!(other.best(FIGURE), Ok(best));
    }

    #[test]
    fn other_facts_are_a_fault() {
        assert!(FIGURE.best(Figure { facts: [985, 1_000_000], ..FIGURE }).is_err());
        assert!(FIGURE.best(Figure { facts: [984, 999_999], ..FIGURE }).is_err());
    }
}
