//! The tuned Rust with the core's boundary: a table goes in and comes out by value, as a record of plain numbers, through functions that are not inlined.

use super::table::{Right, Segment, Segments, Table, ENTRIES};
use super::{events, locate, return_writing};
use basilothyn::raw::{ErrorRecord, EventResult, LocateResult, Outgoing, SegmentRecord, TableRecord, WriteResult};

const UNSOUND: u32 = 20;

#[inline(never)]
#[allow(improper_ctypes_definitions)] // a slice is a pointer and a length here too
pub extern "C" fn grant(record: TableRecord, store: &mut [u8], bytes: &[u8]) -> EventResult {
    event(record, |table| events::grant(table, store, bytes))
}

#[inline(never)]
#[allow(improper_ctypes_definitions)]
pub extern "C" fn layout_return(
    record: TableRecord,
    store: &mut [u8],
    offset: u64,
    length: u64,
    iomode: u32,
) -> EventResult {
    event(record, |table| events::layout_return(table, store, offset, length, iomode))
}

#[inline(never)]
#[allow(improper_ctypes_definitions)]
pub extern "C" fn recall(record: TableRecord, store: &mut [u8], offset: u64, length: u64, iomode: u32) -> EventResult {
    event(record, |table| events::recall(table, store, offset, length, iomode))
}

#[inline(never)]
#[allow(improper_ctypes_definitions)]
pub extern "C" fn write_return(outgoing: Outgoing, errors: &[ErrorRecord], out: &mut [u8]) -> WriteResult {
    match return_writing::write_return(&outgoing, errors, out) {
        Ok(length) => WriteResult { refusal: 0, length: length as u64 },
        Err(refusal) => WriteResult { refusal, length: 0 },
    }
}

#[inline(never)]
#[allow(improper_ctypes_definitions)]
pub extern "C" fn revoke(record: TableRecord, store: &mut [u8]) -> EventResult {
    event(record, |table| events::revoke(table, store))
}

#[inline(never)]
#[allow(improper_ctypes_definitions)]
pub extern "C" fn locate_read(record: TableRecord, store: &[u8], offset: u64, length: u64) -> LocateResult {
    lookup(&record, |table| locate::locate_read(table, store, offset, length))
}

#[inline(never)]
#[allow(improper_ctypes_definitions)]
pub extern "C" fn locate_write(record: TableRecord, store: &[u8], offset: u64, length: u64) -> LocateResult {
    lookup(&record, |table| locate::locate_write(table, store, offset, length))
}

#[inline(always)]
fn event(record: TableRecord, change: impl FnOnce(&mut Table) -> u32) -> EventResult {
    let Some(mut table) = table_of(&record) else { return EventResult { refusal: UNSOUND, table: record } };
    match change(&mut table) {
        0 => EventResult { refusal: 0, table: record_of(&table) },
        refusal => EventResult { refusal, table: record },
    }
}

#[inline(always)]
fn lookup(record: &TableRecord, ask: impl FnOnce(&Table) -> Result<locate::Location, u32>) -> LocateResult {
    match table_of(record).ok_or(UNSOUND).and_then(|table| ask(&table)) {
        Ok(found) => LocateResult {
            refusal: 0,
            iomode: found.iomode,
            slot: found.slot,
            stripe: found.stripe,
            offset: found.offset,
            length: found.length,
            mirrors: found.mirrors,
        },
        Err(refusal) => LocateResult { refusal, iomode: 0, slot: 0, stripe: 0, offset: 0, length: 0, mirrors: 0 },
    }
}

#[inline(always)]
fn table_of(record: &TableRecord) -> Option<Table> {
    Some(Table { read: segments_of(&record.read, record.read_count)?, rw: segments_of(&record.rw, record.rw_count)? })
}

#[inline(always)]
fn segments_of(records: &[SegmentRecord; ENTRIES], count: u64) -> Option<Segments> {
    let mut list = Segments { count: count as usize, ..Segments::default() };
    for (place, record) in list.entries.iter_mut().zip(records) {
        *place = Segment { first: record.first, last: record.last, right: right_of(record.kind, record.slot)? };
    }
    Some(list)
}

/// A slot above 255 is unsound anyhow.
#[inline(always)]
fn right_of(kind: u32, slot: u32) -> Option<Right> {
    let slot = u8::try_from(slot).ok()?;
    match (kind, slot) {
        (0, 0) => Some(Right::None),
        (1, _) => Some(Right::Granted(slot)),
        (2, _) => Some(Right::Recalled(slot)),
        _ => None,
    }
}

#[inline(always)]
fn record_of(table: &Table) -> TableRecord {
    let records = |list: &Segments| list.entries.each_ref().map(segment_record);
    TableRecord {
        read: records(&table.read),
        rw: records(&table.rw),
        read_count: table.read.count as u64,
        rw_count: table.rw.count as u64,
    }
}

#[inline(always)]
fn segment_record(segment: &Segment) -> SegmentRecord {
    let (kind, slot) = match segment.right {
        Right::None => (0, 0),
        Right::Granted(slot) => (1, slot),
        Right::Recalled(slot) => (2, slot),
    };
    SegmentRecord { first: segment.first, last: segment.last, kind, slot: slot.into() }
}
