//! The segment table: a list of at most 32 segments for each iomode.

use crate::iomode::Iomode;
use crate::refusal::Refusal;
use crate::segments::Segment;
use crate::store::SLOT_COUNT;

/// "at most 32 an iomode"
pub const SEGMENT_LIMIT: usize = 32;

/// The entries of one iomode; unused ones are blank.
pub type Entries = [Segment; SEGMENT_LIMIT];

/// One client's rights in one file. The default table is empty.
#[derive(Clone, Debug, Default, PartialEq, Eq)]
pub struct Table {
    entries: [Entries; 2],
}

impl Table {
    pub fn entries(&self, iomode: Iomode) -> &Entries {
        &self.entries[iomode.index()]
    }

    /// One index, to be overwritten.
    pub fn entry_mut(&mut self, iomode: Iomode, index: usize) -> Option<&mut Segment> {
        self.entries[iomode.index()].get_mut(index)
    }

    /// The entries before the first blank one. No segment is blank, so in a
    /// sound table these are all segments.
    pub fn segments(&self, iomode: Iomode) -> &[Segment] {
        let entries = self.entries(iomode);
        let count = entries.iter().position(Segment::is_blank).unwrap_or(SEGMENT_LIMIT);
        &entries[..count]
    }

    /// Stores a list and blanks the other entries, or refuses it as too long.
    pub fn replace(&mut self, iomode: Iomode, list: &[Segment]) -> Result<(), Refusal> {
        let mut entries = Entries::default();
        let used = entries.get_mut(..list.len()).ok_or(Refusal::TooManySegments)?;
        used.copy_from_slice(list);
        self.entries[iomode.index()] = entries;
        Ok(())
    }

    /// Which slots a segment of either iomode names. Numbers that are no slot's
    /// are left to the test of soundness.
    pub fn named_slots(&self) -> [bool; SLOT_COUNT] {
        let mut named = [false; SLOT_COUNT];
        for segment in self.entries.iter().flatten() {
            if let Some(slot) = segment.right.slot().and_then(|slot| named.get_mut(slot as usize)) {
                *slot = true;
            }
        }
        named
    }
}
