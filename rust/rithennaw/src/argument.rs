//! The numbers that a call is asked with. They may be any, since the library judges them itself: a host hands on what it was
//! asked, and gets the refusal, or the empty part, that the documents name.

use crate::Label;

/// Makes a type that is any 32-bit number. With `: Label`, a [`Label`] is one too.
macro_rules! argument {
    ($(#[$doc:meta])* $name:ident) => {
        $(#[$doc])*
        #[derive(Debug, Clone, Copy, PartialEq, Eq, Hash)]
        pub struct $name(u32);

        impl $name {
            /// The number asked with.
            pub const fn number(self) -> u32 {
                self.0
            }
        }

        impl From<u32> for $name {
            fn from(number: u32) -> $name {
                $name(number)
            }
        }
    };
    ($(#[$doc:meta])* $name:ident: Label) => {
        argument!($(#[$doc])* $name);

        impl From<Label> for $name {
            fn from(label: Label) -> $name {
                $name(u8::from(label).into())
            }
        }
    };
}

argument! {
    /// A slot, for whose record is asked or to which is posted. Any number is one. Those above 15 have no record, and a post
    /// to them is refused with [`Refusal::PostSlot`](crate::Refusal::PostSlot).
    Slot
}

argument! {
    /// The label for which a view or a sheet is asked. Any [`Label`] is one. So is any number, since the library judges
    /// it: one above 15 is refused with [`Refusal::Observer`](crate::Refusal::Observer).
    Observer: Label
}

argument! {
    /// The label that a posted message gets. Any [`Label`] is one. So is any number, since the library judges it: one above
    /// 15 is refused with [`Refusal::PostLabel`](crate::Refusal::PostLabel).
    MessageLabel: Label
}

impl Slot {
    /// The slots 0 to 15 of an image, in order.
    pub fn all() -> impl Iterator<Item = Slot> {
        (0..16).map(Slot)
    }
}
