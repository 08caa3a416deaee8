//! Clearances: the ceilings of tasks' labels.

use crate::label::Label;

/// A clearance, 0 to 15: a task's label has no bit that isn't in it. It is no label, as nothing flows to it or from it.
#[derive(Debug, Clone, Copy, PartialEq, Eq)]
pub struct Clearance(u8);

impl Clearance {
    /// The clearance that admits every label.
    pub const ALL: Clearance = Clearance(15);

    /// The clearance with this number, if it is at most 15.
    pub fn new(number: u8) -> Option<Clearance> {
        (number <= Clearance::ALL.0).then_some(Clearance(number))
    }

    /// Whether the label is a subset of this clearance.
    pub fn admits(self, label: Label) -> bool {
        label.number() & !self.0 == 0
    }

    /// The clearance's number, 0 to 15.
    pub fn number(self) -> u8 {
        self.0
    }
}

#[cfg(test)]
mod tests {
    use super::Clearance;
    use crate::label::Label;

    #[test]
    fn admitting_is_having_each_bit_of_the_label() {
        for (clearance, label) in (0..16).flat_map(|clearance| Label::all().map(move |label| (clearance, label))) {
            let each = (0..4).all(|bit| label.number() >> bit & 1 == 0 || clearance >> bit & 1 == 1);
            assert_eq!(Clearance(clearance).admits(label), each);
        }
        assert!(Label::all().all(|label| Clearance::ALL.admits(label)));
    }

    #[test]
    fn clearances_end_at_fifteen() {
        assert_eq!(Clearance::new(15), Some(Clearance::ALL));
        assert!((16..=255).all(|number| Clearance::new(number).is_none()));
    }
}
