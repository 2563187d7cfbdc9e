//! What a layout is for: reading, or reading and writing.

use crate::refusal::Refusal;

/// LAYOUTIOMODE4_READ: "READ is 1"
pub const IOMODE_READ: u32 = 1;
/// LAYOUTIOMODE4_RW: "RW is 2"
pub const IOMODE_RW: u32 = 2;
/// LAYOUTIOMODE4_ANY: "ANY is 3"
pub const IOMODE_ANY: u32 = 3;

/// An iomode that a segment list is kept for.
#[derive(Clone, Copy, Debug, PartialEq, Eq, Hash)]
pub enum Iomode {
    Read,
    ReadWrite,
}

impl Iomode {
    pub const BOTH: [Iomode; 2] = [Iomode::Read, Iomode::ReadWrite];

    /// The iomode's place in a pair of lists.
    pub fn index(self) -> usize {
        self as usize
    }

    /// The one iomode that a grant or a segment list has.
    pub fn single(number: u32) -> Option<Iomode> {
        match number {
            IOMODE_READ => Some(Iomode::Read),
            IOMODE_RW => Some(Iomode::ReadWrite),
            _ => None,
        }
    }

    /// The number on the wire.
    pub fn number(self) -> u32 {
        match self {
            Iomode::Read => IOMODE_READ,
            Iomode::ReadWrite => IOMODE_RW,
        }
    }
}

/// The iomodes that a return or recall acts on: "return and recall take all
/// three", and "ANY acts on both".
pub fn iomodes_acted_on(number: u32) -> Result<&'static [Iomode], Refusal> {
    match number {
        IOMODE_READ => Ok(&[Iomode::Read]),
        IOMODE_RW => Ok(&[Iomode::ReadWrite]),
        IOMODE_ANY => Ok(&Iomode::BOTH),
        _ => Err(Refusal::IomodeNotAllowed),
    }
}

#[cfg(test)]
mod tests {
    use super::*;

    #[test]
    fn numbers() {
        assert_eq!(iomodes_acted_on(1), Ok(&[Iomode::Read][..]));
        assert_eq!(iomodes_acted_on(2), Ok(&[Iomode::ReadWrite][..]));
        assert_eq!(iomodes_acted_on(3), Ok(&[Iomode::Read, Iomode::ReadWrite][..]));
        for number in [0, 4, 257, 1 << 24, u32::MAX] {
            assert_eq!(iomodes_acted_on(number), Err(Refusal::IomodeNotAllowed));
        }
        for iomode in Iomode::BOTH {
            assert_eq!(Iomode::single(iomode.number()), Some(iomode));
            assert_eq!(Iomode::BOTH[iomode.index()], iomode);
        }
        assert_eq!(Iomode::single(3), None);
    }
}
