//! Iomodes, and the numbers that must not be mixed up: of mirrors, stripes and slots.

use crate::raw::MIRRORS;
use std::fmt;

#[derive(Clone, Copy, Debug, PartialEq, Eq, Hash)]
pub enum Iomode {
    Read = 1,
    ReadWrite = 2,
    /// Both; only a return and a recall take it.
    Any = 3,
}

impl Iomode {
    /// The iomode with a number of NFS.
    pub fn from_number(number: u32) -> Option<Iomode> {
        [Iomode::Read, Iomode::ReadWrite, Iomode::Any].into_iter().find(|iomode| iomode.number() == number)
    }

    pub fn number(self) -> u32 {
        self as u32
    }
}

/// The iomode in an answer that was accepted.
pub(crate) fn answered(iomode: u32) -> Iomode {
    Iomode::from_number(iomode).expect("the core answers READ or RW")
}

macro_rules! number {
    ($(#[$doc:meta])* $name:ident) => {
        $(#[$doc])*
        #[derive(Clone, Copy, Debug, PartialEq, Eq, PartialOrd, Ord, Hash)]
        pub struct $name(pub u32);

        impl fmt::Display for $name {
            fn fmt(&self, f: &mut fmt::Formatter) -> fmt::Result {
                self.0.fmt(f)
            }
        }
    };
}

number! {
    /// The number of a mirror in a layout, from 0.
    MirrorNumber
}

number! {
    /// The number of a data server in its mirror, from 0.
    StripeNumber
}

number! {
    /// The number of the slot that a layout body is kept in, from 0.
    SlotNumber
}

/// The mirrors that an I/O goes to.
#[derive(Clone, Copy, Debug, PartialEq, Eq, Hash)]
pub struct MirrorSet(u32);

impl MirrorSet {
    /// Of a set of bits; bit 0 is mirror 0.
    pub(crate) fn of_bits(bits: u32) -> MirrorSet {
        MirrorSet(bits)
    }

    pub fn contains(self, mirror: MirrorNumber) -> bool {
        self.0.checked_shr(mirror.0).is_some_and(|bits| bits % 2 == 1)
    }

    /// The mirrors in it, in rising order.
    pub fn iter(self) -> impl Iterator<Item = MirrorNumber> {
        (0..MIRRORS as u32).map(MirrorNumber).filter(move |&mirror| self.contains(mirror))
    }
}
