//! Grant, return, recall and revoke. Each answers the refusal's number, or 0, and a refused one leaves table and store as they were.

use super::edits::{granted, recalled, returned};
use super::layout4::read_layout4;
use super::ranges::{acted_on, last_byte};
use super::soundness::sound;
use super::store::{clear_slots, write_slot};
use super::table::{Right, Segment, Table};

pub fn grant(table: &mut Table, store: &mut [u8], bytes: &[u8]) -> u32 {
    number(try_grant(table, store, bytes))
}

pub fn layout_return(table: &mut Table, store: &mut [u8], offset: u64, length: u64, iomode: u32) -> u32 {
    number(try_return(table, store, offset, length, iomode))
}

pub fn recall(table: &mut Table, store: &[u8], offset: u64, length: u64, iomode: u32) -> u32 {
    number(try_recall(table, store, offset, length, iomode))
}

pub fn revoke(table: &mut Table, store: &mut [u8]) -> u32 {
    match sound(table, store).map(|named| named.slots) {
        Ok(slots) => {
            *table = Table::default();
            clear_slots(store, slots);
            0
        }
        Err(refusal) => refusal,
    }
}

fn number(answer: Result<(), u32>) -> u32 {
    answer.err().unwrap_or(0)
}

fn try_grant(table: &mut Table, store: &mut [u8], bytes: &[u8]) -> Result<(), u32> {
    let named = sound(table, store)?;
    let layout = read_layout4(bytes)?;
    let own = named.slot_of(layout.body);
    let lowest_free = named.slots.trailing_ones() as u8;
    let list = table.list_mut(layout.iomode);
    let met = list.met(layout.first, layout.last);
    let segments = &list.entries[met.clone()];
    // Where no slot holds the body, every held byte is under another one.
    if segments.iter().any(|segment| segment.right.slot() != own) {
        return Err(21);
    }
    if segments.iter().any(|segment| matches!(segment.right, Right::Recalled(_))) {
        return Err(22);
    }
    let slot = own.unwrap_or(lowest_free);
    if slot == 8 {
        return Err(24);
    }
    let edit = granted(list, met, Segment { first: layout.first, last: layout.last, right: Right::Granted(slot) });
    edit.check(list)?;
    edit.apply(list);
    if own.is_none() {
        write_slot(store, slot, layout.body);
    }
    Ok(())
}

fn try_return(table: &mut Table, store: &mut [u8], offset: u64, length: u64, iomode: u32) -> Result<(), u32> {
    let before = sound(table, store)?.slots;
    let last = last_byte(offset, length)?;
    let (read, rw) = acted_on(iomode)?;
    let read = read.then(|| returned(&table.read, offset, last));
    let rw = rw.then(|| returned(&table.rw, offset, last));
    read.iter().try_for_each(|edit| edit.check(&table.read))?;
    rw.iter().try_for_each(|edit| edit.check(&table.rw))?;
    read.iter().for_each(|edit| edit.apply(&mut table.read));
    rw.iter().for_each(|edit| edit.apply(&mut table.rw));
    clear_slots(store, before & !table.named());
    Ok(())
}

/// A slot that was named stays so.
fn try_recall(table: &mut Table, store: &[u8], offset: u64, length: u64, iomode: u32) -> Result<(), u32> {
    sound(table, store)?;
    let last = last_byte(offset, length)?;
    let (read, rw) = acted_on(iomode)?;
    let met_read = read.then(|| table.read.met(offset, last)).filter(|met| !met.is_empty());
    let met_rw = rw.then(|| table.rw.met(offset, last)).filter(|met| !met.is_empty());
    if met_read.is_none() && met_rw.is_none() {
        return Err(25);
    }
    let read = met_read.map(|met| recalled(&table.read, met, offset, last));
    let rw = met_rw.map(|met| recalled(&table.rw, met, offset, last));
    read.iter().try_for_each(|edit| edit.check(&table.read))?;
    rw.iter().try_for_each(|edit| edit.check(&table.rw))?;
    read.iter().for_each(|edit| edit.apply(&mut table.read));
    rw.iter().for_each(|edit| edit.apply(&mut table.rw));
    Ok(())
}
