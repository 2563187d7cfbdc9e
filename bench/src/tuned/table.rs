//! The segment table: 32 entries and a count for each iomode.

use super::ranges::READ;
use std::ops::Range;

pub const ENTRIES: usize = 32;

#[derive(Clone, Copy, Debug, Default, PartialEq, Eq)]
pub enum Right {
    #[default]
    None,
    Granted(u8),
    Recalled(u8),
}

impl Right {
    #[inline(always)]
    pub fn slot(self) -> Option<u8> {
        match self {
            Right::None => None,
            Right::Granted(slot) | Right::Recalled(slot) => Some(slot),
        }
    }
}

/// The default is a blank entry.
#[derive(Clone, Copy, Debug, Default, PartialEq, Eq)]
pub struct Segment {
    pub first: u64,
    pub last: u64,
    pub right: Right,
}

impl Segment {
    /// Whether the other one starts on the byte after this one with the same right; it starts after this one in any case.
    #[inline(always)]
    pub fn joins(&self, behind: &Segment) -> bool {
        behind.first - self.last == 1 && behind.right == self.right
    }
}

#[derive(Clone, Copy, Debug, Default, PartialEq, Eq)]
pub struct Segments {
    pub entries: [Segment; ENTRIES],
    pub count: usize,
}

impl Segments {
    pub fn used(&self) -> &[Segment] {
        &self.entries[..self.count]
    }

    /// The entries of the segments that meet a range.
    pub fn met(&self, first: u64, last: u64) -> Range<usize> {
        let start = self.used().partition_point(|segment| segment.last < first);
        let behind = &self.used()[start..];
        start..start + behind.partition_point(|segment| segment.first <= last)
    }

    /// The slots that the segments name, as a set of bits.
    pub fn named(&self) -> u8 {
        self.used().iter().filter_map(|segment| segment.right.slot()).fold(0, |named, slot| named | 1 << slot)
    }
}

#[derive(Clone, Copy, Debug, Default, PartialEq, Eq)]
pub struct Table {
    pub read: Segments,
    pub rw: Segments,
}

impl Table {
    /// The list of one iomode, READ or RW.
    pub fn list_mut(&mut self, iomode: u32) -> &mut Segments {
        if iomode == READ {
            &mut self.read
        } else {
            &mut self.rw
        }
    }

    pub fn named(&self) -> u8 {
        self.read.named() | self.rw.named()
    }
}
