//! Labels: sets of owners as masks of four bits.

/// A label, 0 to 15; bit o says that owner o's figures may be present.
#[derive(Debug, Clone, Copy, PartialEq, Eq)]
pub struct Label(u8);

impl Label {
    /// How many labels there are.
    pub const COUNT: usize = 16;

    /// The label with this number, if it is at most 15.
    pub fn new(number: u8) -> Option<Label> {
        (usize::from(number) < Label::COUNT).then_some(Label(number))
    }

    /// The labels 0 to 15 in order.
    pub fn all() -> impl Iterator<Item = Label> {
        (0..Label::COUNT as u8).map(Label)
    }

    /// Whether each bit of this label is also in `other`.
    pub fn flows_to(self, other: Label) -> bool {
        self.0 & other.0 == self.0
    }

    /// The bits of either label.
    pub fn join(self, other: Label) -> Label {
        Label(self.0 | other.0)
    }

    /// The label's number, 0 to 15.
    pub fn number(self) -> u8 {
        self.0
    }

    /// The label's number as an index below `Label::COUNT`.
    pub fn index(self) -> usize {
        usize::from(self.0)
    }
}

#[cfg(test)]
mod tests {
    use super::Label;

    /// P1.
    #[test]
    fn five_flows_to_seven_but_not_to_six() {
        let [five, six, seven] = [5, 6, 7].map(Label);
        assert!(five.flows_to(seven));
        assert!(!five.flows_to(six));
    }

    #[test]
    fn flowing_is_having_each_bit_and_joining_takes_either() {
        for (k, m) in (0..16u8).flat_map(|k| (0..16u8).map(move |m| (k, m))) {
            let each = (0..4).all(|bit| k >> bit & 1 == 0 || m >> bit & 1 == 1);
            assert_eq!(Label(k).flows_to(Label(m)), each);
            let joined = Label(k).join(Label(m)).number();
            assert!((0..4).all(|bit| joined >> bit & 1 == (k >> bit & 1).max(m >> bit & 1)));
        }
    }

    #[test]
    fn labels_end_at_fifteen() {
        assert_eq!(Label::new(15), Some(Label(15)));
        assert_eq!(Label::new(16), None);
    }
}
