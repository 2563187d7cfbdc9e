//! The model once more, for small universes: one cell holds the right of one
//! byte, and every judgement looks at each cell.
//!
//! A wide cell stands for the bytes in the middle of a file, so that events
//! reach both of its ends; no event may start or end inside it.

use crate::event::{Event, RangeNumbers};
use crate::layout4::read_layout4;
use crate::model_slots::{BodyRight, ModelSlots};
use crate::refusal::Refusal;
use crate::segments::Segment;
use std::ops::RangeInclusive;

#[derive(Clone, Debug)]
struct Cell {
    bytes: RangeInclusive<u64>,
    /// The right for reading, then that for reading and writing.
    rights: [BodyRight; 2],
}

#[derive(Clone, Debug)]
pub struct CellModel {
    cells: Vec<Cell>,
    slots: ModelSlots,
}

impl CellModel {
    /// A file whose first and last `edge` bytes have a cell each; the bytes
    /// between them share one.
    pub fn with_edges(edge: u64) -> Self {
        let cell = |bytes| Cell { bytes, rights: Default::default() };
        let mut cells: Vec<Cell> = (0..edge).map(|byte| cell(byte..=byte)).collect();
        cells.push(cell(edge..=u64::MAX - edge));
        cells.extend((0..edge).rev().map(|back| cell(u64::MAX - back..=u64::MAX - back)));
        CellModel { cells, slots: ModelSlots::default() }
    }

    pub fn apply(&mut self, event: &Event) -> Result<(), Refusal> {
        let mut after = self.clone();
        match event {
            Event::Grant(layout4) => after.grant(layout4)?,
            Event::Return(numbers) => {
                for right in after.rights_covered(numbers)? {
                    *right = BodyRight::None;
                }
            }
            Event::Recall(numbers) => after.recall(numbers)?,
            Event::Revoke => after.cells.iter_mut().for_each(|cell| cell.rights = [BodyRight::None, BodyRight::None]),
        }
        if (1..=2).any(|iomode| after.segments(iomode).len() > 32) {
            return Err(Refusal::TooManySegments);
        }
        let cells = &after.cells;
        let named = |body: &[u8]| {
            cells.iter().flat_map(|cell| &cell.rights).any(|right| right.body().is_some_and(|held| held == body))
        };
        after.slots.empty_unless(named);
        *self = after;
        Ok(())
    }

    fn grant(&mut self, bytes: &[u8]) -> Result<(), Refusal> {
        let layout = read_layout4(bytes)?;
        let numbers = RangeNumbers { offset: layout.offset, length: layout.length, iomode: layout.iomode };
        let body = layout.body(bytes);
        let mut covered = self.rights_covered(&numbers)?;
        if covered.iter().any(|right| right.is_held_under_another(body)) {
            return Err(Refusal::HeldUnderAnotherBody);
        }
        if covered.iter().any(|right| right.is_recalled()) {
            return Err(Refusal::Recalled);
        }
        for right in &mut covered {
            **right = BodyRight::Granted(body.to_vec());
        }
        self.slots.store_body(body)
    }

    fn recall(&mut self, numbers: &RangeNumbers) -> Result<(), Refusal> {
        let covered = self.rights_covered(numbers)?;
        if covered.iter().all(|right| **right == BodyRight::None) {
            return Err(Refusal::NothingToRecall);
        }
        covered.into_iter().for_each(BodyRight::recall);
        Ok(())
    }

    /// The right in each cell and iomode that the numbers name; 5, then 3.
    fn rights_covered(&mut self, numbers: &RangeNumbers) -> Result<Vec<&mut BodyRight>, Refusal> {
        let RangeNumbers { offset, length, iomode } = *numbers;
        // The sum is formed in 128 bits; a sum of 2^64 - 1 is the largest.
        let end = u128::from(offset) + u128::from(length);
        if length == 0 || (length != u64::MAX && end > u128::from(u64::MAX)) {
            return Err(Refusal::BadRange);
        }
        if !(1..=3).contains(&iomode) {
            return Err(Refusal::IomodeNotAllowed);
        }
        let end = if length == u64::MAX { 1 << 64 } else { end };
        let covers = |byte: u64| offset <= byte && u128::from(byte) < end;
        let mut covered = Vec::new();
        for cell in &mut self.cells {
            assert_eq!(covers(*cell.bytes.start()), covers(*cell.bytes.end()), "a cut cell");
            if covers(*cell.bytes.start()) {
                let bits = [iomode & 1 != 0, iomode & 2 != 0];
                let rights = cell.rights.iter_mut().zip(bits);
                covered.extend(rights.filter(|(_, acts)| *acts).map(|(right, _)| right));
            }
        }
        Ok(covered)
    }

    /// Runs of cells with the same right, for READ (1) or RW (2).
    pub fn segments(&self, iomode: u32) -> Vec<Segment> {
        let index = (iomode - 1) as usize;
        let runs = self.cells.chunk_by(|one, next| one.rights[index] == next.rights[index]);
        runs.filter(|run| run[0].rights[index].is_held())
            .map(|run| Segment {
                first: *run[0].bytes.start(),
                last: *run[run.len() - 1].bytes.end(),
                right: self.slots.shown(&run[0].rights[index]),
            })
            .collect()
    }

    pub fn slots(&self) -> &ModelSlots {
        &self.slots
    }
}
