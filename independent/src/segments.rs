//! Segments of file bytes, and lists of them in rising order.

use crate::range::ByteRange;

/// 01: "A byte's right, per iomode, is none, granted under a body, or recalled
/// under a body." The body is named by the number of its slot.
#[derive(Clone, Copy, Debug, Default, PartialEq, Eq, Hash)]
pub enum Right {
    #[default]
    None,
    Granted(u32),
    Recalled(u32),
}

impl Right {
    /// The slot that the right names, if the byte is held.
    pub fn slot(self) -> Option<u32> {
        match self {
            Right::None => None,
            Right::Granted(slot) | Right::Recalled(slot) => Some(slot),
        }
    }

    pub fn is_recalled(self) -> bool {
        matches!(self, Right::Recalled(_))
    }

    /// "A recall turns granted into recalled and nothing else."
    pub fn after_recall(self) -> Right {
        match self {
            Right::Granted(slot) => Right::Recalled(slot),
            other => other,
        }
    }
}

/// Bytes of one right, the last one included. The default is a blank entry of
/// a table.
#[derive(Clone, Copy, Debug, Default, PartialEq, Eq, Hash)]
pub struct Segment {
    pub first: u64,
    pub last: u64,
    pub right: Right,
}

impl Segment {
    pub fn is_blank(&self) -> bool {
        *self == Segment::default()
    }

    pub fn contains(&self, byte: u64) -> bool {
        self.first <= byte && byte <= self.last
    }

    /// Whether some byte is in both.
    pub fn meets(&self, range: ByteRange) -> bool {
        self.first <= range.last && range.first <= self.last
    }

    /// Whether the other segment starts on the byte after this one.
    pub fn touches(&self, behind: &Segment) -> bool {
        self.last.checked_add(1) == Some(behind.first)
    }
}

/// The list after every right inside the range was changed.
pub fn with_rights_changed(list: &[Segment], range: ByteRange, change: impl Fn(Right) -> Right) -> Vec<Segment> {
    let mut parts = cut_at_ends(list, range);
    for part in parts.iter_mut().filter(|part| part.meets(range)) {
        part.right = change(part.right);
    }
    parts.retain(|part| part.right != Right::None);
    joined(&parts)
}

/// The list after the whole range was granted.
pub fn with_range_granted(list: &[Segment], range: ByteRange, slot: u32) -> Vec<Segment> {
    let mut parts = cut_at_ends(list, range);
    parts.retain(|part| !part.meets(range));
    parts.push(Segment { first: range.first, last: range.last, right: Right::Granted(slot) });
    parts.sort_by_key(|part| part.first);
    joined(&parts)
}

/// The list cut so that every part is inside the range or outside of it.
fn cut_at_ends(list: &[Segment], range: ByteRange) -> Vec<Segment> {
    let mut parts = Vec::new();
    for segment in list {
        if segment.first < range.first {
            parts.push(Segment { last: segment.last.min(range.first - 1), ..*segment });
        }
        if segment.meets(range) {
            let first = segment.first.max(range.first);
            let last = segment.last.min(range.last);
            parts.push(Segment { first, last, right: segment.right });
        }
        if segment.last > range.last {
            parts.push(Segment { first: segment.first.max(range.last + 1), ..*segment });
        }
    }
    parts
}

/// 01: "Neighbours that touch with the same right and body are one segment."
fn joined(parts: &[Segment]) -> Vec<Segment> {
    let mut list: Vec<Segment> = Vec::new();
    for part in parts {
        match list.last_mut() {
            Some(before) if before.right == part.right && before.touches(part) => {
                before.last = part.last;
            }
            _ => list.push(*part),
        }
    }
    list
}

#[cfg(test)]
mod tests {
    use super::*;

    fn segment(first: u64, last: u64, right: Right) -> Segment {
        Segment { first, last, right }
    }

    fn range(first: u64, last: u64) -> ByteRange {
        ByteRange { first, last }
    }

    #[test]
    fn only_the_middle_is_changed() {
        let list = [segment(0, 99, Right::Granted(3))];
        let recalled = with_rights_changed(&list, range(10, 19), Right::after_recall);
        let outer = [segment(0, 9, Right::Granted(3)), segment(20, 99, Right::Granted(3))];
        assert_eq!(recalled, [outer[0], segment(10, 19, Right::Recalled(3)), outer[1]]);
        assert_eq!(with_rights_changed(&list, range(10, 19), |_| Right::None), outer);
        assert_eq!(with_range_granted(&outer, range(10, 19), 3), list);
        assert_eq!(with_range_granted(&outer, range(10, 19), 4).len(), 3);
    }

    #[test]
    fn the_last_byte_of_a_file_has_no_neighbour_behind_it() {
        let list = [segment(5, u64::MAX, Right::Granted(0))];
        let whole = range(0, u64::MAX);
        assert_eq!(with_rights_changed(&list, whole, |_| Right::None), []);
        let end = with_rights_changed(&list, range(u64::MAX, u64::MAX), Right::after_recall);
        assert_eq!(end[1], segment(u64::MAX, u64::MAX, Right::Recalled(0)));
        assert!(!end[1].touches(&segment(0, 0, Right::Recalled(0))));
    }
}
