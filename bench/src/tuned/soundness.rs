//! Whether a table and a store are sound.

use super::bytes::is_zero;
use super::layout::accepts;
use super::store::{body_in, SLOT, SLOTS, STORE};
use super::table::{Right, Segments, Table};

/// The named slots, as a set of bits, and their bodies.
pub struct Named<'a> {
    pub slots: u8,
    pub bodies: [&'a [u8]; SLOTS],
}

impl Named<'_> {
    /// The slot that holds a body.
    pub fn slot_of(&self, body: &[u8]) -> Option<u8> {
        // The body of a slot that is not named is empty here, and none is accepted empty.
        self.bodies.iter().position(|held| *held == body).map(|slot| slot as u8)
    }
}

/// What the named slots hold, or 20.
pub fn sound<'a>(table: &Table, store: &'a [u8]) -> Result<Named<'a>, u32> {
    sound_by(table, store, |_, body| accepts(body))
}

/// The same, where the bodies are read by a reader of the caller's, with their slots; what it accepts is to be what `accepts` does.
#[inline(always)]
pub fn sound_by<'a>(
    table: &Table,
    store: &'a [u8],
    read: impl FnMut(usize, &'a [u8]) -> Result<(), u32>,
) -> Result<Named<'a>, u32> {
    validate(table, store, read).ok_or(20)
}

#[inline(always)]
fn validate<'a>(
    table: &Table,
    store: &'a [u8],
    mut read: impl FnMut(usize, &'a [u8]) -> Result<(), u32>,
) -> Option<Named<'a>> {
    if store.len() != STORE {
        return None;
    }
    let slots = named_in(&table.read)? | named_in(&table.rw)?;
    let mut bodies: [&[u8]; SLOTS] = [&[]; SLOTS];
    for (number, slot) in store.as_chunks::<SLOT>().0.iter().enumerate() {
        if slots & 1 << number != 0 {
            let body = body_in(slot)?;
            read(number, body).ok()?;
            if bodies[..number].contains(&body) {
                return None;
            }
            bodies[number] = body;
        } else if !is_zero(slot) {
            return None;
        }
    }
    Some(Named { slots, bodies })
}

/// The slots that a sound list names.
fn named_in(list: &Segments) -> Option<u8> {
    let (used, blank) = list.entries.split_at_checked(list.count)?;
    let mut named = 0;
    for (place, segment) in used.iter().enumerate() {
        let slot = segment.right.slot().filter(|slot| usize::from(*slot) < SLOTS)?;
        if segment.first > segment.last {
            return None;
        }
        if place > 0 {
            let before = &used[place - 1];
            if segment.first <= before.last || before.joins(segment) {
                return None;
            }
        }
        named |= 1 << slot;
    }
    let left_over =
        blank.iter().fold(0, |all, place| all | place.first | place.last | u64::from(place.right != Right::None));
    (left_over == 0).then_some(named)
}
