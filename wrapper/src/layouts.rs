//! What a client holds of one file, and where its I/O goes.

use crate::layout::Layout;
use crate::numbers::{answered, Iomode, MirrorSet, SlotNumber, StripeNumber};
use crate::raw::{self, EventResult, LocateResult, TableRecord, SLOT_LENGTH, STORE_LENGTH};
use crate::refusal::{accepted, Refusal};

/// Where the first bytes of an I/O go.
#[derive(Clone, Copy, Debug, PartialEq, Eq)]
pub struct Piece {
    /// The iomode that serves: READ or RW.
    pub iomode: Iomode,
    /// The slot of the layout body.
    pub slot: SlotNumber,
    /// The data server's stripe number.
    pub stripe: StripeNumber,
    /// The offset, in the file and on the server.
    pub offset: u64,
    /// How many bytes the answer is good for; for the rest ask again after them.
    pub length: u64,
    /// The mirrors: of a write all, or with flag 8 one; of a read one. That one is the mirror whose data server of this
    /// stripe has the highest efficiency, the lowest number on a tie, so it may differ from piece to piece. Any other of
    /// the layout may serve a read too, but for bytes that were written under flag 8 and are not yet committed: they are
    /// read from the mirror that they were written to, also where a lookup through another body names another.
    pub mirrors: MirrorSet,
}

/// What a client holds of one file: the table of rights, and the layout bodies.
#[derive(Clone, Debug, PartialEq, Eq)]
pub struct Layouts {
    table: TableRecord,
    store: Box<[u8]>,
}

impl Default for Layouts {
    fn default() -> Self {
        Layouts { table: raw::empty_table(), store: vec![0; STORE_LENGTH].into_boxed_slice() }
    }
}

impl Layouts {
    /// A `layout4` as in the reply to LAYOUTGET.
    pub fn grant(&mut self, layout4: &[u8]) -> Result<(), Refusal> {
        let result = raw::grant(self.table, &mut self.store, layout4);
        self.keep(result)
    }

    /// LAYOUTRETURN was answered with status 0. A length of 2^64 - 1 means through the last byte, here and in a recall.
    pub fn layout_return(&mut self, offset: u64, length: u64, iomode: Iomode) -> Result<(), Refusal> {
        let result = raw::layout_return(self.table, &mut self.store, offset, length, iomode.number());
        self.keep(result)
    }

    /// CB_LAYOUTRECALL came: from now on that iomode serves no I/O in the range. The other still may.
    pub fn recall(&mut self, offset: u64, length: u64, iomode: Iomode) -> Result<(), Refusal> {
        let result = raw::recall(self.table, &mut self.store, offset, length, iomode.number());
        self.keep(result)
    }

    /// Every right is gone, as after a lost lease.
    pub fn revoke(&mut self) -> Result<(), Refusal> {
        let result = raw::revoke(self.table, &mut self.store);
        self.keep(result)
    }

    /// Where the first piece of a read goes: through RW under a body without flag 4, else through READ.
    pub fn locate_read(&self, offset: u64, length: u64) -> Result<Piece, Refusal> {
        piece(raw::locate_read(self.table, &self.store, offset, length))
    }

    /// Where the first piece of a write goes: through RW.
    pub fn locate_write(&self, offset: u64, length: u64) -> Result<Piece, Refusal> {
        piece(raw::locate_write(self.table, &self.store, offset, length))
    }

    /// The layout body in a slot that a piece named; empty once an event has cleared the slot, or where there is none.
    pub fn body(&self, slot: SlotNumber) -> &[u8] {
        let Some(slot) = self.store.chunks_exact(SLOT_LENGTH).nth(slot.0 as usize) else { return &[] };
        let length = u32::from_le_bytes([slot[0], slot[1], slot[2], slot[3]]) as usize;
        &slot[6..6 + length]
    }

    /// What the layout body in a slot says; a slot that is clear is refused as a body without bytes.
    pub fn layout(&self, slot: SlotNumber) -> Result<Layout<'_>, Refusal> {
        Layout::read(self.body(slot))
    }

    fn keep(&mut self, result: EventResult) -> Result<(), Refusal> {
        self.table = result.table;
        accepted(result.refusal)
    }
}

fn piece(r: LocateResult) -> Result<Piece, Refusal> {
    accepted(r.refusal)?;
    Ok(Piece {
        iomode: answered(r.iomode),
        slot: SlotNumber(r.slot),
        stripe: StripeNumber(r.stripe),
        offset: r.offset,
        length: r.length,
        mirrors: MirrorSet::of_bits(r.mirrors),
    })
}
