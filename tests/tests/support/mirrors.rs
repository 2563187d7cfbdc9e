//! How the mirrors of an answered request are chosen, by its body and stripe
//! alone, and how often each situation comes in a case file.

use crate::requests::{body_of, for_each_request};
use independent::io_request::{Direction, IoRequest};
use independent::layout::{read_layout_body, read_server_at, LayoutSummary};
use independent::state::State;
use std::collections::BTreeMap;

/// A situation of an answered request. "Moved" means that the best mirror at
/// its stripe is another one than the first servers would give. All but
/// `WriteOfAll` are situations of reads and of writes with flag 8.
#[derive(Clone, Copy, Debug, PartialEq, Eq, PartialOrd, Ord)]
pub enum Situation {
    ReadMoved,
    WriteMoved,
    /// Moved, and nothing of it is seen: the write names all mirrors.
    WriteOfAll,
    /// Moved, at the first and at the last byte of a unit of several bytes.
    FirstByteOfUnit,
    LastByteOfUnit,
    /// Moved, with eight mirrors.
    EightMirrors,
    /// Several mirrors are the best at the request's stripe, and one at stripe
    /// 0; and the other way round.
    TieAtStripe,
    TieAtStripe0,
    /// With several mirrors and servers: the best efficiency is 2^32 - 1, or 0.
    BestIsMost,
    BestIs0,
    /// The best mirror at the last byte's stripe is another one than at the
    /// first's.
    OtherAtLastByte,
}

impl Situation {
    pub const ALL: [Situation; 11] = [
        Situation::ReadMoved,
        Situation::WriteMoved,
        Situation::WriteOfAll,
        Situation::FirstByteOfUnit,
        Situation::LastByteOfUnit,
        Situation::EightMirrors,
        Situation::TieAtStripe,
        Situation::TieAtStripe0,
        Situation::BestIsMost,
        Situation::BestIs0,
        Situation::OtherAtLastByte,
    ];
}

/// How often each situation comes in a case file. Each answered request names
/// the mirrors that it is to name.
pub fn situations_of_requests(file: &[u8]) -> BTreeMap<Situation, usize> {
    let mut counts = BTreeMap::new();
    for_each_request(file, |state, request| {
        for situation in situations_of(state, request) {
            *counts.entry(situation).or_default() += 1;
        }
    });
    counts
}

fn situations_of(state: &State, request: &IoRequest) -> Vec<Situation> {
    let Ok(found) = state.locate(request) else { return Vec::new() };
    let body = body_of(state, found.slot);
    let layout = read_layout_body(body).expect("an accepted body");
    let at_byte = |byte| Efficiencies::at(body, &layout, stripe_of(&layout, byte));
    let (at_0, asked) = (at_byte(0), at_byte(request.offset));
    let at_last = at_byte(request.offset + (request.length - 1));
    let moved = asked.best() != at_0.best();
    let is_read = request.direction == Direction::Read;
    if !is_read && layout.flags & 8 == 0 {
        assert_eq!(found.mirrors, (1 << layout.mirrors) - 1, "{request:?}");
        return if moved { vec![Situation::WriteOfAll] } else { Vec::new() };
    }
    assert_eq!(found.mirrors, 1 << asked.best(), "{request:?}");
    let starts_unit = |byte: u64| layout.unit > 1 && byte % layout.unit == 0;
    let choice = layout.mirrors > 1 && layout.servers > 1;
    let told = [
        (Situation::ReadMoved, moved && is_read),
        (Situation::WriteMoved, moved && !is_read),
        (Situation::FirstByteOfUnit, moved && starts_unit(request.offset)),
        (Situation::LastByteOfUnit, moved && starts_unit(request.offset + 1)),
        (Situation::EightMirrors, moved && layout.mirrors == 8),
        (Situation::TieAtStripe, asked.is_tie() && !at_0.is_tie()),
        (Situation::TieAtStripe0, !asked.is_tie() && at_0.is_tie()),
        (Situation::BestIsMost, choice && asked.highest() == u32::MAX),
        (Situation::BestIs0, choice && asked.highest() == 0),
        (Situation::OtherAtLastByte, at_last.best() != asked.best()),
    ];
    told.into_iter().filter(|(_, comes)| *comes).map(|(situation, _)| situation).collect()
}

/// "Stripe number = (offset div unit) mod servers; with one server it is 0."
fn stripe_of(layout: &LayoutSummary, byte: u64) -> u32 {
    let unit_number = byte.checked_div(layout.unit).unwrap_or(0);
    (unit_number % u64::from(layout.servers)) as u32
}

/// The efficiencies of the mirrors at one stripe.
struct Efficiencies(Vec<u32>);

impl Efficiencies {
    fn at(body: &[u8], layout: &LayoutSummary, stripe: u32) -> Self {
        let server = |mirror| layout.start(mirror, stripe).and_then(|start| read_server_at(body, start));
        Efficiencies((0..layout.mirrors).map(|mirror| server(mirror).expect("a server").efficiency).collect())
    }

    fn highest(&self) -> u32 {
        self.0.iter().copied().fold(0, u32::max)
    }

    /// The mirrors that have the highest efficiency, the lowest first.
    fn best_ones(&self) -> impl Iterator<Item = usize> + '_ {
        let highest = self.highest();
        self.0.iter().enumerate().filter(move |(_, one)| **one == highest).map(|(mirror, _)| mirror)
    }

    /// "the highest efficiency, lowest number on a tie"
    fn best(&self) -> usize {
        self.best_ones().next().expect("a mirror")
    }

    fn is_tie(&self) -> bool {
        self.best_ones().count() > 1
    }
}
