//! The tables that events and lookups are measured on: so many segments of RW, of READ, or of each, whose bodies of 3,872 bytes fill so many slots.

use crate::bodies::striped;
use crate::forms::{core_event, core_form, tuned_event, tuned_form};
use crate::tuned;
use basilothyn::raw::{self, TableRecord};
use independent::event::Event;
use independent::iomode::{IOMODE_READ, IOMODE_RW};
use independent::samples::bodies::Layout4Head;
use independent::samples::events::grant;
use independent::state::State;
use independent::table::Table;

/// Segment i has the bytes from 2 i STEP on, and as many are free after it.
pub const STEP: u64 = 1_000_000;

/// One table in three forms, and its store.
pub struct Held {
    /// Of one iomode.
    pub segments: u64,
    pub slots: u64,
    in_both: bool,
    pub core: TableRecord,
    pub plain: Table,
    pub tuned: tuned::table::Table,
    pub store: Vec<u8>,
}

impl Held {
    pub fn new(segments: u64, slots: u64) -> Self {
        Held::in_one(IOMODE_RW, segments, slots)
    }

    /// In READ alone.
    pub fn in_read(segments: u64, slots: u64) -> Self {
        Held::in_one(IOMODE_READ, segments, slots)
    }

    fn in_one(iomode: u32, segments: u64, slots: u64) -> Self {
        let grants = (0..segments).map(|segment| granted(iomode, segment, &body_of(segment, slots)));
        Held { segments, slots, ..Held::after(grants) }
    }

    /// Each segment in both iomodes, under bodies with these flags. With more than one slot READ's body is another one than RW's.
    pub fn in_both(segments: u64, slots: u64, flags: u32) -> Self {
        let body = |segment: u64| striped(3, 16, flags, (segment % slots) as u32);
        let rw = (0..segments).map(|segment| granted(IOMODE_RW, segment, &body(segment)));
        let read = (0..segments).map(|segment| granted(IOMODE_READ, segment, &body(segment + 1)));
        Held { segments, slots, in_both: true, ..Held::after(rw.chain(read)) }
    }

    /// One segment of RW, from byte 0 on, under this body.
    pub fn under(body: &[u8]) -> Self {
        Held { segments: 1, slots: 1, ..Held::after([granted(IOMODE_RW, 0, body)].into_iter()) }
    }

    fn after(grants: impl Iterator<Item = Event>) -> Self {
        let mut state = State::default();
        let (mut core, mut core_store) = (raw::empty_table(), state.store.clone());
        let (mut tuned, mut tuned_store) = (tuned::table::Table::default(), state.store.clone());
        for event in grants {
            core = core_event(core, &mut core_store, &event).table;
            tuned_event(&mut tuned, &mut tuned_store, &event);
            assert_eq!(state.apply(&event), Ok(()));
        }
        assert!(core == core_form(&state.table) && tuned == tuned_form(&state.table));
        assert!(core_store == state.store && tuned_store == state.store);
        Held { segments: 0, slots: 0, in_both: false, core, plain: state.table, tuned, store: state.store }
    }

    pub fn name(&self) -> String {
        let plural = |count| if count == 1 { "" } else { "s" };
        let each = if self.in_both { " in each" } else { "" };
        let Held { segments, slots, .. } = self;
        format!("{segments} segment{}{each}, {slots} slot{}", plural(*segments), plural(*slots))
    }
}

fn granted(iomode: u32, segment: u64, body: &[u8]) -> Event {
    let first = 2 * segment * STEP;
    grant(iomode, first, first + STEP - 1, body)
}

/// The body that a segment is granted under.
pub fn body_of(segment: u64, slots: u64) -> Vec<u8> {
    striped(3, 16, 0, (segment % slots.max(1)) as u32)
}

/// A grant for reading and writing.
pub fn layout4(offset: u64, length: u64, body: Vec<u8>) -> Vec<u8> {
    Layout4Head { offset, length, ..Layout4Head::whole_file() }.around(&body)
}
