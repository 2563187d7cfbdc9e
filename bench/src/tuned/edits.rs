//! What an event puts in place of some neighbouring segments. An edit is made first and carried out once all tests have passed.

use super::table::{Right, Segment, Segments, ENTRIES};
use std::ops::Range;

/// A return leaves two parts of what it meets at most; a recall cuts at two bytes, so it adds two segments at most.
pub type Return = Edit<2>;
pub type Recall = Edit<{ ENTRIES + 2 }>;

pub struct Edit<const N: usize> {
    window: Range<usize>,
    parts: [Segment; N],
    count: usize,
}

impl<const N: usize> Edit<N> {
    fn over(window: Range<usize>) -> Self {
        Edit { window, parts: [Segment::default(); N], count: 0 }
    }

    fn push(&mut self, first: u64, last: u64, right: Right) {
        let part = Segment { first, last, right };
        match self.parts[..self.count].last_mut() {
            Some(before) if before.joins(&part) => before.last = last,
            _ => {
                self.parts[self.count] = part;
                self.count += 1;
            }
        }
    }

    /// How many segments the list would have.
    fn length(&self, list: &Segments) -> usize {
        list.count - self.window.len() + self.count
    }

    /// 23 where the list would be too long.
    pub fn check(&self, list: &Segments) -> Result<(), u32> {
        if self.length(list) > ENTRIES {
            return Err(23);
        }
        Ok(())
    }

    pub fn apply(&self, list: &mut Segments) {
        let length = self.length(list);
        let behind = self.window.start + self.count;
        list.entries.copy_within(self.window.end..list.count, behind);
        list.entries[self.window.start..behind].copy_from_slice(&self.parts[..self.count]);
        if length < list.count {
            list.entries[length..list.count].fill(Segment::default());
        }
        list.count = length;
    }
}

/// The ends of the first and the last segment met stay where they are outside of the range.
pub fn returned(list: &Segments, first: u64, last: u64) -> Return {
    let met = list.met(first, last);
    let mut edit = Edit::over(met.clone());
    if let [front, ..] = &list.entries[met.clone()] {
        if front.first < first {
            edit.push(front.first, first - 1, front.right);
        }
    }
    if let [.., back] = &list.entries[met] {
        if back.last > last {
            edit.push(last + 1, back.last, back.right);
        }
    }
    edit
}

/// What is recalled may join its neighbours, so these are written again too.
pub fn recalled(list: &Segments, met: Range<usize>, first: u64, last: u64) -> Recall {
    let window = met.start.saturating_sub(1)..(met.end + 1).min(list.count);
    let mut edit = Edit::over(window.clone());
    for (place, segment) in window.clone().zip(&list.entries[window]) {
        match segment.right {
            Right::Granted(slot) if met.contains(&place) => {
                if segment.first < first {
                    edit.push(segment.first, first - 1, segment.right);
                }
                edit.push(segment.first.max(first), segment.last.min(last), Right::Recalled(slot));
                if segment.last > last {
                    edit.push(last + 1, segment.last, segment.right);
                }
            }
            right => edit.push(segment.first, segment.last, right),
        }
    }
    edit
}

/// All that is met has the right that is granted, so one segment stands for it, and for the neighbours that it joins.
pub fn granted(list: &Segments, met: Range<usize>, mut new: Segment) -> Edit<1> {
    if let [front, ..] = &list.entries[met.clone()] {
        new.first = new.first.min(front.first);
    }
    if let [.., back] = &list.entries[met.clone()] {
        new.last = new.last.max(back.last);
    }
    let Range { mut start, mut end } = met;
    if start > 0 && list.entries[start - 1].joins(&new) {
        start -= 1;
        new.first = list.entries[start].first;
    }
    if end < list.count && new.joins(&list.entries[end]) {
        new.last = list.entries[end].last;
        end += 1;
    }
    let mut edit = Edit::over(start..end);
    edit.push(new.first, new.last, new.right);
    edit
}
