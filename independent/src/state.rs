//! What the program keeps from case to case: a table, a store, and how much of
//! the store a call is given.

use crate::event::Event;
use crate::events::apply_event;
use crate::io_request::IoRequest;
use crate::iomode::Iomode;
use crate::locate::{locate, Location};
use crate::refusal::Refusal;
use crate::segments::Segment;
use crate::soundness::check_sound;
use crate::store::STORE_LENGTH;
use crate::table::Table;

/// "one table, empty at the start, and one shelf of 32,768 bytes, zero at the
/// start"
#[derive(Clone, Debug, PartialEq, Eq)]
pub struct State {
    pub table: Table,
    pub store: Vec<u8>,
    borrowed: usize,
}

impl Default for State {
    fn default() -> Self {
        State { table: Table::default(), store: vec![0; STORE_LENGTH], borrowed: STORE_LENGTH }
    }
}

impl State {
    /// Puts an event to the table and the part of the store that is borrowed.
    pub fn apply(&mut self, event: &Event) -> Result<(), Refusal> {
        apply_event(&mut self.table, &mut self.store[..self.borrowed], event)
    }

    /// Where an I/O goes, by the table and the part of the store that is borrowed.
    pub fn locate(&self, request: &IoRequest) -> Result<Location, Refusal> {
        locate(&self.table, &self.store[..self.borrowed], request)
    }

    /// Whether the next call will find a sound table and store.
    pub fn is_sound(&self) -> bool {
        check_sound(&self.table, &self.store[..self.borrowed]).is_ok()
    }

    /// Gives later calls the first bytes of the store only.
    pub fn set_borrowed(&mut self, length: usize) {
        self.borrowed = length.min(STORE_LENGTH);
    }

    /// Overwrites a byte of the store; an offset after its end is none.
    pub fn set_byte(&mut self, offset: usize, value: u8) {
        if let Some(byte) = self.store.get_mut(offset) {
            *byte = value;
        }
    }

    /// Overwrites an entry of the table; the 33rd is none.
    pub fn set_segment(&mut self, iomode: Iomode, index: usize, segment: Segment) {
        if let Some(kept) = self.table.entry_mut(iomode, index) {
            *kept = segment;
        }
    }
}
