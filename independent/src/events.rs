//! What grant, return, recall and revoke do to a table and its store.
//!
//! 01: "Events: 20; then the event's own bytes and numbers (5 before 3); then
//! 21, 22, 25, 24, 23." Nothing is written before every test has passed.

use crate::event::{Event, RangeNumbers};
use crate::iomode::{iomodes_acted_on, Iomode};
use crate::layout4::read_layout4;
use crate::range::byte_range;
use crate::refusal::Refusal;
use crate::segments::{with_range_granted, with_rights_changed, Right, Segment};
use crate::soundness::check_sound;
use crate::store::{body_in, clear_slot, slots, write_slot};
use crate::table::Table;

/// Puts an event to a table and its store; a refused one changes neither.
pub fn apply_event(table: &mut Table, store: &mut [u8], event: &Event) -> Result<(), Refusal> {
    check_sound(table, store)?;
    match event {
        Event::Grant(layout4) => grant(table, store, layout4),
        Event::Return(numbers) => layout_return(table, store, numbers),
        Event::Recall(numbers) => recall(table, store, numbers),
        Event::Revoke => {
            settle(table, store, Table::default());
            Ok(())
        }
    }
}

/// "A grant makes its range granted."
fn grant(table: &mut Table, store: &mut [u8], bytes: &[u8]) -> Result<(), Refusal> {
    let layout = read_layout4(bytes)?;
    let range = byte_range(layout.offset, layout.length)?;
    let iomode = Iomode::single(layout.iomode).ok_or(Refusal::IomodeNotAllowed)?;
    let body = layout.body(bytes);
    let own_slot = slot_holding(table, store, body);
    let met: Vec<&Segment> = table.segments(iomode).iter().filter(|segment| segment.meets(range)).collect();
    // Where no slot holds the body, every held byte is under another one.
    if met.iter().any(|segment| segment.right.slot() != own_slot) {
        return Err(Refusal::HeldUnderAnotherBody);
    }
    if met.iter().any(|segment| segment.right.is_recalled()) {
        return Err(Refusal::Recalled);
    }
    let slot = own_slot.or_else(|| lowest_unnamed(table)).ok_or(Refusal::NoSlotLeft)?;
    let list = with_range_granted(table.segments(iomode), range, slot);
    table.replace(iomode, &list)?;
    if own_slot.is_none() {
        write_slot(store, slot as usize, body);
    }
    Ok(())
}

/// "A return makes its range none; a return of bytes not held is accepted."
fn layout_return(table: &mut Table, store: &mut [u8], numbers: &RangeNumbers) -> Result<(), Refusal> {
    let range = byte_range(numbers.offset, numbers.length)?;
    let mut after = table.clone();
    for &iomode in iomodes_acted_on(numbers.iomode)? {
        let list = with_rights_changed(table.segments(iomode), range, |_| Right::None);
        after.replace(iomode, &list)?;
    }
    settle(table, store, after);
    Ok(())
}

/// "A recall turns granted into recalled and nothing else."
fn recall(table: &mut Table, store: &mut [u8], numbers: &RangeNumbers) -> Result<(), Refusal> {
    let range = byte_range(numbers.offset, numbers.length)?;
    let iomodes = iomodes_acted_on(numbers.iomode)?;
    let meets_any = |&iomode: &Iomode| table.segments(iomode).iter().any(|segment| segment.meets(range));
    if !iomodes.iter().any(meets_any) {
        return Err(Refusal::NothingToRecall);
    }
    let mut after = table.clone();
    for &iomode in iomodes {
        let list = with_rights_changed(table.segments(iomode), range, Right::after_recall);
        after.replace(iomode, &list)?;
    }
    settle(table, store, after);
    Ok(())
}

/// Keeps the new table and zeroes the slots that were named and are no longer.
fn settle(table: &mut Table, store: &mut [u8], after: Table) {
    let still_named = after.named_slots();
    for (slot, named) in table.named_slots().into_iter().enumerate() {
        if named && !still_named[slot] {
            clear_slot(store, slot);
        }
    }
    *table = after;
}

/// "A grant whose body is on the shelf uses that slot".
fn slot_holding(table: &Table, store: &[u8], body: &[u8]) -> Option<u32> {
    let named = table.named_slots();
    let holds = |(slot, bytes): (usize, &[u8])| named[slot] && body_in(bytes) == Some(body);
    slots(store).enumerate().position(holds).map(|slot| slot as u32)
}

/// "otherwise the lowest unnamed one"
fn lowest_unnamed(table: &Table) -> Option<u32> {
    table.named_slots().iter().position(|&named| !named).map(|slot| slot as u32)
}
