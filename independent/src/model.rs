//! The reference model, which 01 calls the ledger, apart from the table: "It
//! holds a right for every byte in each iomode, at first none, and eight slots,
//! at first empty. It judges by these papers' rules, off its own rights,
//! segments and slots; 20 never comes."

use crate::event::{Event, RangeNumbers};
use crate::iomode::{iomodes_acted_on, Iomode};
use crate::layout4::read_layout4;
use crate::model_slots::{BodyRight, ModelSlots};
use crate::range::{byte_range, ByteRange, LAST_BYTE};
use crate::refusal::Refusal;
use crate::segments::Segment;
use std::collections::BTreeMap;

/// The rights of every byte in one iomode: from a break point to the byte
/// before the next one, every byte has the break point's right. There is
/// always one at byte 0, and none is ever taken away.
type Rights = BTreeMap<u64, BodyRight>;

#[derive(Clone, Debug)]
pub struct Model {
    rights: [Rights; 2],
    slots: ModelSlots,
}

impl Default for Model {
    fn default() -> Self {
        let none = Rights::from([(0, BodyRight::None)]);
        Model { rights: [none.clone(), none], slots: ModelSlots::default() }
    }
}

impl Model {
    /// "A refused event changes nothing; an accepted one acts as said above."
    pub fn apply(&mut self, event: &Event) -> Result<(), Refusal> {
        let mut after = match event {
            Event::Grant(layout4) => self.after_grant(layout4)?,
            Event::Return(numbers) => self.after_return(numbers)?,
            Event::Recall(numbers) => self.after_recall(numbers)?,
            Event::Revoke => self.after_revoke(),
        };
        if Iomode::BOTH.iter().any(|&iomode| after.segments(iomode).len() > 32) {
            return Err(Refusal::TooManySegments);
        }
        let rights = &after.rights;
        let all = || rights.iter().flat_map(BTreeMap::values);
        after.slots.empty_unless(|body| all().any(|right| right.body().is_some_and(|b| b == body)));
        *self = after;
        Ok(())
    }

    fn after_grant(&self, bytes: &[u8]) -> Result<Model, Refusal> {
        let layout = read_layout4(bytes)?;
        let range = byte_range(layout.offset, layout.length)?;
        let iomode = Iomode::single(layout.iomode).ok_or(Refusal::IomodeNotAllowed)?;
        let body = layout.body(bytes);
        let met = self.rights_in(iomode, range);
        if met.iter().any(|right| right.is_held_under_another(body)) {
            return Err(Refusal::HeldUnderAnotherBody);
        }
        if met.iter().any(|right| right.is_recalled()) {
            return Err(Refusal::Recalled);
        }
        let mut after = self.clone();
        after.slots.store_body(body)?;
        after.change(iomode, range, |right| *right = BodyRight::Granted(body.to_vec()));
        Ok(after)
    }

    fn after_return(&self, numbers: &RangeNumbers) -> Result<Model, Refusal> {
        let range = byte_range(numbers.offset, numbers.length)?;
        let mut after = self.clone();
        for &iomode in iomodes_acted_on(numbers.iomode)? {
            after.change(iomode, range, |right| *right = BodyRight::None);
        }
        Ok(after)
    }

    fn after_recall(&self, numbers: &RangeNumbers) -> Result<Model, Refusal> {
        let range = byte_range(numbers.offset, numbers.length)?;
        let iomodes = iomodes_acted_on(numbers.iomode)?;
        let is_held_in = |&iomode: &Iomode| self.rights_in(iomode, range).iter().any(|right| right.is_held());
        if !iomodes.iter().any(is_held_in) {
            return Err(Refusal::NothingToRecall);
        }
        let mut after = self.clone();
        for &iomode in iomodes {
            after.change(iomode, range, BodyRight::recall);
        }
        Ok(after)
    }

    /// "A revoke makes every byte none in both iomodes."
    fn after_revoke(&self) -> Model {
        let mut after = self.clone();
        after.rights.iter_mut().flat_map(Rights::values_mut).for_each(|r| *r = BodyRight::None);
        after
    }

    /// The right of one byte.
    pub fn right_at(&self, iomode: Iomode, byte: u64) -> &BodyRight {
        let at_or_before = self.rights[iomode.index()].range(..=byte).next_back();
        at_or_before.expect("a break point at byte 0").1
    }

    /// Every right that some byte of the range has.
    fn rights_in(&self, iomode: Iomode, range: ByteRange) -> Vec<&BodyRight> {
        let later = self.rights[iomode.index()].range(range.first..=range.last);
        std::iter::once(self.right_at(iomode, range.first)).chain(later.map(|(_, right)| right)).collect()
    }

    /// Changes the right of every byte of the range.
    fn change(&mut self, iomode: Iomode, range: ByteRange, change: impl Fn(&mut BodyRight)) {
        self.break_at(iomode, range.first);
        if range.last < LAST_BYTE {
            self.break_at(iomode, range.last + 1);
        }
        let inside = self.rights[iomode.index()].range_mut(range.first..=range.last);
        inside.for_each(|(_, right)| change(right));
    }

    fn break_at(&mut self, iomode: Iomode, byte: u64) {
        let right = self.right_at(iomode, byte).clone();
        self.rights[iomode.index()].insert(byte, right);
    }

    /// The shortest list of segments that shows the rights, worked out afresh.
    pub fn segments(&self, iomode: Iomode) -> Vec<Segment> {
        let rights = &self.rights[iomode.index()];
        let mut list = Vec::new();
        let mut before = &BodyRight::None;
        for (&first, right) in rights {
            if right != before && right.is_held() {
                let goes_on = rights.range(first..).take_while(|(_, next)| *next == right).count();
                let behind = rights.range(first..).nth(goes_on).map(|(&byte, _)| byte);
                let last = behind.map_or(LAST_BYTE, |byte| byte - 1);
                list.push(Segment { first, last, right: self.slots.shown(right) });
            }
            before = right;
        }
        list
    }

    /// Every byte at which some accepted event starts or another one follows.
    pub fn break_points(&self, iomode: Iomode) -> impl Iterator<Item = u64> + '_ {
        self.rights[iomode.index()].keys().copied()
    }

    pub fn slots(&self) -> &ModelSlots {
        &self.slots
    }
}

#[cfg(test)]
mod tests {
    use super::*;
    use crate::samples::bodies::{Layout4Head, LayoutPlan};

    fn numbers(offset: u64, length: u64, iomode: u32) -> RangeNumbers {
        RangeNumbers { offset, length, iomode }
    }

    #[test]
    fn rights_are_kept_byte_by_byte() {
        let body = LayoutPlan::plain(1, 1).encode().bytes;
        let head = Layout4Head { offset: 10, length: 10, iomode: 1, layout_type: 4 };
        let mut model = Model::default();
        assert_eq!(model.apply(&Event::Grant(head.around(&body))), Ok(()));
        assert_eq!(model.apply(&Event::Recall(numbers(15, u64::MAX, 3))), Ok(()));
        let granted = BodyRight::Granted(body.clone());
        for (byte, right) in [(9, BodyRight::None), (10, granted.clone()), (14, granted), (20, BodyRight::None)] {
            assert_eq!(*model.right_at(Iomode::Read, byte), right);
            assert_eq!(*model.right_at(Iomode::ReadWrite, byte), BodyRight::None);
        }
        assert_eq!(*model.right_at(Iomode::Read, 15), BodyRight::Recalled(body));
        assert_eq!(model.segments(Iomode::Read).len(), 2);
        assert_eq!(model.slots().filled(), 1);
        assert_eq!(model.apply(&Event::Return(numbers(10, 10, 1))), Ok(()));
        assert_eq!(model.slots().filled(), 0);
    }
}
