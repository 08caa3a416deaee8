//! Slot numbers, 0 to 15.

/// A slot number, 0 to 15.
#[derive(Debug, Clone, Copy, PartialEq, Eq)]
pub struct Slot(u8);

impl Slot {
    /// How many slots there are.
    pub const COUNT: usize = 16;

    /// The slot with this number, if it is at most 15.
    pub fn new(number: u32) -> Option<Slot> {
        u8::try_from(number).ok().filter(|&small| usize::from(small) < Slot::COUNT).map(Slot)
    }

    /// The slots 0 to 15 in order.
    pub fn all() -> impl Iterator<Item = Slot> {
        (0..Slot::COUNT as u8).map(Slot)
    }

    /// The slot after this one, 15 being followed by 0.
    pub fn successor(self) -> Slot {
        Slot((self.0 + 1) % Slot::COUNT as u8)
    }

    /// The slot that lies `distance` further, if there is one.
    pub fn plus(self, distance: u8) -> Option<Slot> {
        Slot::new(u32::from(self.0) + u32::from(distance))
    }

    /// The slot's number, 0 to 15.
    pub fn number(self) -> u8 {
        self.0
    }

    /// The slot's number as an index below `Slot::COUNT`.
    pub fn index(self) -> usize {
        usize::from(self.0)
    }
}
