//! The table in the core's and in the tuned form, an event put to each rival, and the plain answers in the tuned form.

use crate::tuned;
use crate::tuned::by_value;
use crate::tuned::locate::Location;
use basilothyn::raw::{self, EventResult, SegmentRecord, TableRecord};
use independent::event::Event;
use independent::events::apply_event;
use independent::io_request::IoRequest;
use independent::iomode::Iomode;
use independent::locate::locate;
use independent::segments::{Right, Segment};
use independent::table::Table;

pub fn core_event(table: TableRecord, store: &mut [u8], event: &Event) -> EventResult {
    match event {
        Event::Grant(bytes) => raw::grant(table, store, bytes),
        Event::Return(n) => raw::layout_return(table, store, n.offset, n.length, n.iomode),
        Event::Recall(n) => raw::recall(table, store, n.offset, n.length, n.iomode),
        Event::Revoke => raw::revoke(table, store),
    }
}

pub fn by_value_event(table: TableRecord, store: &mut [u8], event: &Event) -> EventResult {
    match event {
        Event::Grant(bytes) => by_value::grant(table, store, bytes),
        Event::Return(n) => by_value::layout_return(table, store, n.offset, n.length, n.iomode),
        Event::Recall(n) => by_value::recall(table, store, n.offset, n.length, n.iomode),
        Event::Revoke => by_value::revoke(table, store),
    }
}

pub fn plain_event(table: &mut Table, store: &mut [u8], event: &Event) -> u32 {
    apply_event(table, store, event).map_or_else(|refusal| refusal.number().into(), |()| 0)
}

pub fn tuned_event(table: &mut tuned::table::Table, store: &mut [u8], event: &Event) -> u32 {
    match event {
        Event::Grant(bytes) => tuned::events::grant(table, store, bytes),
        Event::Return(n) => tuned::events::layout_return(table, store, n.offset, n.length, n.iomode),
        Event::Recall(n) => tuned::events::recall(table, store, n.offset, n.length, n.iomode),
        Event::Revoke => tuned::events::revoke(table, store),
    }
}

pub fn plain_location(table: &Table, store: &[u8], request: &IoRequest) -> Result<Location, u32> {
    let found = locate(table, store, request).map_err(|refusal| u32::from(refusal.number()))?;
    Ok(Location {
        iomode: found.iomode.number(),
        slot: found.slot,
        stripe: found.stripe,
        offset: found.offset,
        length: found.length,
        mirrors: found.mirrors,
    })
}

/// The counts are those of the entries before the first blank one.
pub fn core_form(table: &Table) -> TableRecord {
    let places = |iomode| table.entries(iomode).each_ref().map(core_segment);
    let count = |iomode| table.segments(iomode).len() as u64;
    TableRecord {
        read: places(Iomode::Read),
        rw: places(Iomode::ReadWrite),
        read_count: count(Iomode::Read),
        rw_count: count(Iomode::ReadWrite),
    }
}

fn core_segment(segment: &Segment) -> SegmentRecord {
    let (kind, slot) = match segment.right {
        Right::None => (0, 0),
        Right::Granted(slot) => (1, slot),
        Right::Recalled(slot) => (2, slot),
    };
    SegmentRecord { first: segment.first, last: segment.last, kind, slot }
}

pub fn tuned_form(table: &Table) -> tuned::table::Table {
    let list = |iomode| tuned::table::Segments {
        entries: table.entries(iomode).each_ref().map(tuned_segment),
        count: table.segments(iomode).len(),
    };
    tuned::table::Table { read: list(Iomode::Read), rw: list(Iomode::ReadWrite) }
}

/// A slot number of the generators is at most 255.
fn tuned_segment(segment: &Segment) -> tuned::table::Segment {
    let right = match segment.right {
        Right::None => tuned::table::Right::None,
        Right::Granted(slot) => tuned::table::Right::Granted(slot as u8),
        Right::Recalled(slot) => tuned::table::Right::Recalled(slot as u8),
    };
    tuned::table::Segment { first: segment.first, last: segment.last, right }
}
