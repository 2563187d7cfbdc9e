//! A table and a store that the exported functions keep.

use basilothyn::raw::{self, EventResult, SegmentRecord, TableRecord};
use independent::event::Event;
use independent::io_request::{Direction, IoRequest};
use independent::iomode::Iomode;
use independent::locate::Location;
use independent::segments::{Right, Segment};
use independent::table::{Entries, Table};

pub struct Exported {
    pub table: TableRecord,
    pub store: Vec<u8>,
    /// How many bytes of the store a call borrows.
    pub borrowed: usize,
}

impl Default for Exported {
    fn default() -> Self {
        Exported { table: raw::empty_table(), store: vec![0; raw::STORE_LENGTH], borrowed: raw::STORE_LENGTH }
    }
}

impl Exported {
    /// The answer's number.
    pub fn apply(&mut self, event: &Event) -> u32 {
        let (table, store) = (self.table, &mut self.store[..self.borrowed]);
        let EventResult { refusal, table } = match event {
            Event::Grant(bytes) => raw::grant(table, store, bytes),
            Event::Return(n) => raw::layout_return(table, store, n.offset, n.length, n.iomode),
            Event::Recall(n) => raw::recall(table, store, n.offset, n.length, n.iomode),
            Event::Revoke => raw::revoke(table, store),
        };
        self.table = table;
        refusal
    }

    pub fn locate(&self, request: &IoRequest) -> Result<Location, u32> {
        let store = &self.store[..self.borrowed];
        let r = match request.direction {
            Direction::Read => raw::locate_read(self.table, store, request.offset, request.length),
            Direction::Write => raw::locate_write(self.table, store, request.offset, request.length),
        };
        if r.refusal != 0 {
            return Err(r.refusal);
        }
        let iomode = Iomode::single(r.iomode).expect("READ or RW");
        Ok(Location { iomode, slot: r.slot, stripe: r.stripe, offset: r.offset, length: r.length, mirrors: r.mirrors })
    }

    /// Overwrites an entry; as in `answers`, the count is that of the entries before the first blank one.
    pub fn set_segment(&mut self, iomode: Iomode, index: usize, segment: &Segment) {
        let (entries, count) = match iomode {
            Iomode::Read => (&mut self.table.read, &mut self.table.read_count),
            Iomode::ReadWrite => (&mut self.table.rw, &mut self.table.rw_count),
        };
        entries[index] = segment_record(segment);
        *count = used(entries);
    }
}

/// The record of the independent table.
pub fn record_of(table: &Table) -> TableRecord {
    let records = |entries: &Entries| entries.each_ref().map(segment_record);
    let (read, rw) = (records(table.entries(Iomode::Read)), records(table.entries(Iomode::ReadWrite)));
    TableRecord { read, rw, read_count: used(&read), rw_count: used(&rw) }
}

fn used(entries: &[SegmentRecord]) -> u64 {
    entries.iter().position(|entry| *entry == SegmentRecord::default()).unwrap_or(entries.len()) as u64
}

fn segment_record(segment: &Segment) -> SegmentRecord {
    let (kind, slot) = match segment.right {
        Right::None => (0, 0),
        Right::Granted(slot) => (1, slot),
        Right::Recalled(slot) => (2, slot),
    };
    SegmentRecord { first: segment.first, last: segment.last, kind, slot }
}
