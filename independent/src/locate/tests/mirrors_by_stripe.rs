//! "each mirror is judged by the efficiency of the server that holds the stripe
//! of the request's first byte" (C-12)

use super::{after, granted};
use crate::event::Event;
use crate::io_request::IoRequest;
use crate::iomode::{IOMODE_READ, IOMODE_RW};
use crate::range::LAST_BYTE;
use crate::refusal::Refusal;
use crate::samples::bodies::LayoutPlan;
use crate::samples::events::recall;
use crate::state::State;

/// The bytes in a unit.
const UNIT: u64 = 10;
/// The highest efficiency, and the lowest one of which the first bit is set.
const MOST: u32 = u32::MAX;
const HALF: u32 = 1 << 31;

/// Efficiencies, a row for each mirror and a column for each stripe; and the
/// mirror that each column gives, as its bit.
const CHOICES: [(&[&[u32]], &[u32]); 9] = [
    // Another mirror at each stripe.
    (&[&[9, 1, 5], &[1, 9, 5], &[1, 1, 6]], &[1, 2, 4]),
    // A tie at stripe 0 only, at stripe 1 only, and there without mirror 0.
    (&[&[4, 1], &[4, 2]], &[1, 2]),
    (&[&[1, 4], &[2, 4]], &[2, 1]),
    (&[&[9, 1], &[1, 7], &[1, 7]], &[1, 2]),
    // 0 in all mirrors; 2^32 - 1 in one of them, and in two.
    (&[&[1, 0, 0, MOST], &[3, 0, MOST, 0], &[2, 0, MOST - 1, MOST]], &[2, 1, 2, 1]),
    // Without a sign.
    (&[&[HALF - 1, HALF, HALF], &[HALF, HALF - 1, HALF + 1]], &[2, 1, 2]),
    // One server a mirror: every byte is at stripe 0.
    (&[&[3], &[8], &[8]], &[2]),
    // Eight mirrors.
    (&[&[1, 8], &[2, 7], &[3, 6], &[4, 5], &[5, 4], &[6, 3], &[7, 2], &[8, 1]], &[128, 1]),
    (&[&[0, 4], &[0, 6], &[0, 6], &[0, 1], &[5, 2], &[0, 6], &[5, 3], &[1, 5]], &[16, 2]),
];

/// A layout of these efficiencies; with one server the unit stays 0.
fn layout(rows: &[&[u32]], flags: u32) -> LayoutPlan {
    let plan = LayoutPlan::of_efficiencies(rows);
    LayoutPlan { unit: plan.unit.min(UNIT), flags, ..plan }
}

fn whole_file(iomode: u32, plan: &LayoutPlan) -> Event {
    granted(iomode, 0, LAST_BYTE, plan)
}

fn mirrors(state: &State, request: IoRequest) -> Result<u32, Refusal> {
    state.locate(&request).map(|found| found.mirrors)
}

/// The first and the last byte of each unit of three rounds, with the mirror
/// that is the best there.
fn unit_ends(best: &[u32]) -> impl Iterator<Item = (u64, u32)> + '_ {
    let rounds = best.iter().cycle().take(3 * best.len());
    (0..).zip(rounds).flat_map(|(number, &best)| [(number * UNIT, best), (number * UNIT + UNIT - 1, best)])
}

/// One byte, as many as a unit has, and more, into later units.
const LENGTHS: [u64; 4] = [1, UNIT, UNIT + 1, 5 * UNIT];

/// Reads and writes through RW. Flag 8 decides what the write names, and the
/// read and the write of one mirror name the same one.
#[test]
fn through_rw() {
    for (rows, best) in CHOICES {
        let all = (1 << rows.len()) - 1;
        for (flags, one_mirror) in [(0, false), (3, false), (8, true), (11, true)] {
            let state = after(&[whole_file(IOMODE_RW, &layout(rows, flags))]);
            for ((offset, best), length) in unit_ends(best).flat_map(|end| LENGTHS.map(|length| (end, length))) {
                assert_eq!(mirrors(&state, IoRequest::read(offset, length)), Ok(best));
                let written = if one_mirror { best } else { all };
                assert_eq!(mirrors(&state, IoRequest::write(offset, length)), Ok(written));
            }
        }
    }
}

/// Reads through READ: alone, beside RW with flag 4, and beside RW recalled.
/// RW's body has the mirrors the other way round.
#[test]
fn through_read() {
    for (rows, best) in CHOICES {
        let turned: Vec<&[u32]> = rows.iter().rev().copied().collect();
        let rw = |flags| whole_file(IOMODE_RW, &layout(&turned, flags));
        let rw_events = [vec![], vec![rw(12)], vec![rw(8), recall(IOMODE_RW, 0, LAST_BYTE)]];
        for (rw_events, flags) in rw_events.iter().flat_map(|events| [0, 8].map(|flags| (events, flags))) {
            let read = whole_file(IOMODE_READ, &layout(rows, flags));
            let state = after(&[&[read][..], rw_events].concat());
            for ((offset, best), length) in unit_ends(best).flat_map(|end| LENGTHS.map(|length| (end, length))) {
                assert_eq!(mirrors(&state, IoRequest::read(offset, length)), Ok(best));
            }
        }
    }
}

/// Byte 25 is at stripe 1 of READ's units of 7 on two servers, and at stripe 2
/// of RW's units of 10 on three. With flag 4 the read goes by READ, and with
/// flag 8 the write names what the read through RW would.
#[test]
fn each_body_is_judged_at_its_own_stripe() {
    let read = LayoutPlan { unit: 7, ..LayoutPlan::of_efficiencies(&[[5, 1], [1, 2], [1, 5]]) };
    let rw_rows: [&[u32]; 3] = [&[9, 1, 1], &[1, 9, 2], &[5, 5, 1]];
    for (flags, read_mirror, written) in [(0, 2, 7), (8, 2, 2), (4, 4, 7), (12, 4, 2)] {
        let rw = layout(&rw_rows, flags);
        let state = after(&[whole_file(IOMODE_READ, &read), whole_file(IOMODE_RW, &rw)]);
        assert_eq!(mirrors(&state, IoRequest::read(25, 1)), Ok(read_mirror));
        assert_eq!(mirrors(&state, IoRequest::write(25, 1)), Ok(written));
    }
}

/// Sixteen servers, and stripe s is best served by mirror s mod 4.
#[test]
fn sixteen_servers() {
    let row = |mirror| -> Vec<u32> { (0..16).map(|stripe| u32::from(stripe % 4 == mirror)).collect() };
    let rows = [0, 1, 2, 3].map(row);
    let plan = LayoutPlan { unit: UNIT, flags: 8, ..LayoutPlan::of_efficiencies(&rows) };
    let state = after(&[whole_file(IOMODE_RW, &plan)]);
    let best: Vec<u32> = (0..16).map(|stripe| 1 << (stripe % 4)).collect();
    for (offset, best) in unit_ends(&best) {
        assert_eq!(mirrors(&state, IoRequest::read(offset, 2)), Ok(best));
        assert_eq!(mirrors(&state, IoRequest::write(offset, 2)), Ok(best));
    }
}

/// Mirror 0 is the best at stripe 0 and mirror 1 at stripe 1: requests that go
/// on into the next unit, and the pieces that they get.
#[test]
fn the_first_byte_decides() {
    let state = after(&[whole_file(IOMODE_RW, &layout(&[&[5, 1], &[1, 5]], 8))]);
    let expected = [(9, 2, 1, 1), (19, 2, 1, 2), (0, 11, 10, 1), (10, 11, 10, 2), (9, 30, 1, 1), (12, 9, 8, 2)];
    for (offset, length, piece, best) in expected {
        for request in [IoRequest::read(offset, length), IoRequest::write(offset, length)] {
            let found = state.locate(&request).unwrap();
            assert_eq!((found.length, found.mirrors), (piece, best), "{request:?}");
        }
    }
}

/// The segment starts in the middle of a unit: its first byte is at stripe 1
/// all the same.
#[test]
fn stripes_of_the_file_are_judged() {
    let plan = layout(&[&[5, 1], &[1, 5]], 8);
    let state = after(&[granted(IOMODE_RW, 15, 44, &plan)]);
    for (offset, best) in [(15, 2), (19, 2), (20, 1), (29, 1), (30, 2), (39, 2), (40, 1), (44, 1)] {
        assert_eq!(mirrors(&state, IoRequest::read(offset, 30)), Ok(best));
        assert_eq!(mirrors(&state, IoRequest::write(offset, 30)), Ok(best));
    }
}
