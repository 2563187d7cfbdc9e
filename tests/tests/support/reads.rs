//! What serves the first byte of a read, by table and store alone, and how
//! often each situation comes in a case file.

use crate::requests::{body_of, for_each_request};
use independent::io_request::{Direction, IoRequest};
use independent::iomode::Iomode;
use independent::layout::read_layout_body;
use independent::locate::Location;
use independent::segments::{Right, Segment};
use independent::state::State;
use std::collections::BTreeMap;

/// Where both iomodes serve: which segment's end is seen in the piece.
#[derive(Clone, Copy, Debug, PartialEq, Eq, PartialOrd, Ord)]
pub enum End {
    /// READ's segment ends before the piece does.
    ReadShorter,
    /// The piece ends with RW's segment, and the request and READ's go on.
    ReadLonger,
    /// The request or the stripe unit ends first, or both segments end there.
    Unseen,
}

/// The rights at the first byte of a read. "Barred" is RW granted under a body
/// with flag 4; what is not said to be granted is none or recalled.
#[derive(Clone, Copy, Debug, PartialEq, Eq, PartialOrd, Ord)]
pub enum Rights {
    Both { end: End, same_body: bool },
    ReadBesideBarredRw,
    ReadBesideRecalledRw,
    ReadAlone,
    RwAlone,
    RwBarred,
    Neither,
}

impl Rights {
    /// All but the two in which no segment's end is seen.
    pub const TOLD: [Rights; 10] = [
        Rights::Both { end: End::ReadShorter, same_body: false },
        Rights::Both { end: End::ReadShorter, same_body: true },
        Rights::Both { end: End::ReadLonger, same_body: false },
        Rights::Both { end: End::ReadLonger, same_body: true },
        Rights::ReadBesideBarredRw,
        Rights::ReadBesideRecalledRw,
        Rights::ReadAlone,
        Rights::RwAlone,
        Rights::RwBarred,
        Rights::Neither,
    ];

    /// The iomode that is used, or nothing for 17: "where both serve at its
    /// first byte, RW is used" (C-11).
    fn used(self) -> Option<Iomode> {
        match self {
            Rights::Both { .. } | Rights::RwAlone => Some(Iomode::ReadWrite),
            Rights::ReadBesideBarredRw | Rights::ReadBesideRecalledRw | Rights::ReadAlone => Some(Iomode::Read),
            Rights::RwBarred | Rights::Neither => None,
        }
    }
}

/// How often each situation comes in the reads of a case file that are judged
/// by rights. Each of them is answered from the segment that is to be used.
pub fn rights_of_reads(file: &[u8]) -> BTreeMap<Rights, usize> {
    let mut counts = BTreeMap::new();
    for_each_request(file, |state, request| {
        if request.direction == Direction::Read {
            *counts.entry(rights_of(state, request)).or_default() += 1;
        }
    });
    counts
}

fn rights_of(state: &State, request: &IoRequest) -> Rights {
    let at = |iomode| segment_at(state, iomode, request.offset);
    let (read, rw) = (at(Iomode::Read), at(Iomode::ReadWrite));
    let answer = state.locate(request).ok();
    let read_granted = matches!(read.right, Right::Granted(_));
    let rights = match (rw.right, read_granted) {
        (Right::Granted(slot), _) if has_flag_4(state, slot) => {
            if read_granted {
                Rights::ReadBesideBarredRw
            } else {
                Rights::RwBarred
            }
        }
        (Right::Granted(_), true) => {
            Rights::Both { end: end_seen(request, answer, &read, &rw), same_body: read.right == rw.right }
        }
        (Right::Granted(_), false) => Rights::RwAlone,
        (Right::Recalled(_), true) => Rights::ReadBesideRecalledRw,
        (Right::None, true) => Rights::ReadAlone,
        (_, false) => Rights::Neither,
    };
    let used = |location: Location| (location.iomode, Some(location.slot));
    let expected = rights.used().map(|iomode| (iomode, at(iomode).right.slot()));
    assert_eq!(answer.map(used), expected, "{rights:?}: {request:?}");
    rights
}

/// The segment that a byte is in; a blank one where there is none.
fn segment_at(state: &State, iomode: Iomode, byte: u64) -> Segment {
    let segments = state.table.segments(iomode);
    segments.iter().copied().find(|segment| segment.contains(byte)).unwrap_or_default()
}

fn has_flag_4(state: &State, slot: u32) -> bool {
    read_layout_body(body_of(state, slot)).expect("an accepted body").flags & 4 != 0
}

fn end_seen(request: &IoRequest, answer: Option<Location>, read: &Segment, rw: &Segment) -> End {
    let last = |length: u64| request.offset + (length - 1);
    let piece = last(answer.expect("both serve").length);
    if read.last < piece {
        End::ReadShorter
    } else if piece == rw.last && rw.last < read.last && rw.last < last(request.length) {
        End::ReadLonger
    } else {
        End::Unseen
    }
}
