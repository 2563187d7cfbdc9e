//! Where an I/O goes: the layout, the data server and the mirrors that serve
//! its first bytes, and how many bytes those are.
//!
//! 01: "Order: 20, 5, 17."

use crate::io_request::{Direction, IoRequest};
use crate::iomode::Iomode;
use crate::layout::{read_layout_body, read_server_at, LayoutSummary, NO_READ_IO, WRITE_ONE_MIRROR};
use crate::range::check_io_range;
use crate::refusal::Refusal;
use crate::segments::{Right, Segment};
use crate::soundness::check_sound;
use crate::store::{body_in, slots};
use crate::table::Table;

/// 01: "The answer gives iomode, slot number, stripe number, offset, piece
/// length and mirrors."
#[derive(Clone, Copy, Debug, PartialEq, Eq)]
pub struct Location {
    pub iomode: Iomode,
    pub slot: u32,
    pub stripe: u32,
    /// "The offset on the server is the file offset."
    pub offset: u64,
    /// The bytes that the answer is good for; a longer request goes on after
    /// them with another one.
    pub length: u64,
    /// Bit 0 is mirror 0.
    pub mirrors: u32,
}

/// Says where a request goes by a table and its store, and changes neither.
pub fn locate(table: &Table, store: &[u8], request: &IoRequest) -> Result<Location, Refusal> {
    check_sound(table, store)?;
    check_io_range(request.offset, request.length)?;
    let source = source_of(table, store, request).ok_or(Refusal::RightLacking)?;
    let stripe = stripe_of(&source.layout, request.offset);
    Ok(Location {
        iomode: source.iomode,
        slot: source.slot,
        stripe,
        offset: request.offset,
        length: piece_length(&source, request),
        mirrors: mirrors_of(&source, request.direction, stripe)?,
    })
}

/// A granted segment, and the layout that it is granted under.
struct Source<'a> {
    iomode: Iomode,
    segment: Segment,
    slot: u32,
    body: &'a [u8],
    layout: LayoutSummary,
}

/// "A write needs RW granted. A read needs READ granted, or RW granted under a
/// body without flag 4; where both serve at its first byte, RW is used." (C-11)
fn source_of<'a>(table: &Table, store: &'a [u8], request: &IoRequest) -> Option<Source<'a>> {
    let granted = |iomode| granted_at(table, store, iomode, request.offset);
    match request.direction {
        Direction::Write => granted(Iomode::ReadWrite),
        Direction::Read => granted(Iomode::ReadWrite)
            .filter(|source| source.layout.flags & NO_READ_IO == 0)
            .or_else(|| granted(Iomode::Read)),
    }
}

/// The source at a byte in one iomode. In a sound table a granted segment
/// always names an accepted body.
fn granted_at<'a>(table: &Table, store: &'a [u8], iomode: Iomode, byte: u64) -> Option<Source<'a>> {
    let segment = *table.segments(iomode).iter().find(|segment| segment.contains(byte))?;
    let Right::Granted(slot) = segment.right else { return None };
    let body = slots(store).nth(slot as usize).and_then(body_in)?;
    let layout = read_layout_body(body).ok()?;
    Some(Source { iomode, segment, slot, body, layout })
}

/// "Stripe number = (offset div unit) mod servers; with one server it is 0."
/// Units are counted from the file's start, and unit times servers is never
/// formed: it need not fit 64 bits.
fn stripe_of(layout: &LayoutSummary, offset: u64) -> u32 {
    if layout.servers == 1 {
        return 0;
    }
    // A remainder by at most 16 fits 32 bits.
    (offset / layout.unit % u64::from(layout.servers)) as u32
}

/// "The piece answered is the shortest of the request, the rest of that
/// segment, and, with more than one server, the rest of the stripe unit."
fn piece_length(source: &Source, request: &IoRequest) -> u64 {
    // Compared by how far the last byte is from the first: the rest of a
    // segment can be 2^64 bytes.
    let mut distance = (request.length - 1).min(source.segment.last - request.offset);
    let unit = source.layout.unit;
    if source.layout.servers > 1 {
        distance = distance.min(unit - 1 - request.offset % unit);
    }
    distance + 1
}

/// "A read names one mirror", "A write names all mirrors, as a set of bits, or
/// with flag 8 only the mirror that this same rule picks in the write's own
/// body." The stripe is that of the request's first byte.
fn mirrors_of(source: &Source, direction: Direction, stripe: u32) -> Result<u32, Refusal> {
    let layout = &source.layout;
    if direction == Direction::Write && layout.flags & WRITE_ONE_MIRROR == 0 {
        return Ok((1 << layout.mirrors) - 1);
    }
    Ok(1 << best_mirror(source.body, layout, stripe)?)
}

/// "the highest efficiency, lowest number on a tie; each mirror is judged by
/// the efficiency of the server that holds the stripe of the request's first
/// byte" (C-12)
fn best_mirror(body: &[u8], layout: &LayoutSummary, stripe: u32) -> Result<u32, Refusal> {
    // Every mirror of an accepted body has a server for each stripe.
    let efficiency =
        |mirror| -> Result<u32, Refusal> { Ok(read_server_at(body, layout.start(mirror, stripe)?)?.efficiency) };
    let mut best = 0;
    for mirror in 1..layout.mirrors {
        if efficiency(mirror)? > efficiency(best)? {
            best = mirror;
        }
    }
    Ok(best)
}

#[cfg(test)]
mod tests {
    mod mirrors_by_stripe;

    use super::*;
    use crate::event::Event;
    use crate::iomode::{IOMODE_READ, IOMODE_RW};
    use crate::range::LAST_BYTE;
    use crate::samples::bodies::with_efficiencies;
    use crate::samples::bodies::LayoutPlan;
    use crate::samples::events::{grant, recall};
    use crate::samples::random::Random;
    use crate::state::State;

    fn after(events: &[Event]) -> State {
        let mut state = State::default();
        for event in events {
            assert_eq!(state.apply(event), Ok(()), "{event:?}");
        }
        state
    }

    fn granted(iomode: u32, first: u64, last: u64, plan: &LayoutPlan) -> Event {
        grant(iomode, first, last, &plan.encode().bytes)
    }

    fn striped(unit: u64, servers: usize) -> LayoutPlan {
        LayoutPlan { unit, ..LayoutPlan::plain(1, servers) }
    }

    fn number(answer: Result<Location, Refusal>) -> u32 {
        answer.map_or_else(|refusal| refusal.number().into(), |found| found.iomode.number())
    }

    fn piece(state: &State, offset: u64, length: u64) -> u64 {
        state.locate(&IoRequest::read(offset, length)).unwrap().length
    }

    /// The events that lead to one right of the whole file: 0 none, 1 granted,
    /// 2 recalled.
    fn rights(iomode: u32, right: u32, flags: u32) -> Vec<Event> {
        let plan = LayoutPlan { flags, hint: iomode, ..LayoutPlan::plain(1, 1) };
        let events = [granted(iomode, 0, LAST_BYTE, &plan), recall(iomode, 0, LAST_BYTE)];
        events[..right as usize].to_vec()
    }

    /// The answers to a read where READ is none, granted and recalled, an
    /// iomode's number or 17; by RW's right and flag 4 in its body.
    const READS: [(u32, u32, [u32; 3]); 6] = [
        (0, 0, [17, 1, 17]),
        (0, 4, [17, 1, 17]),
        (1, 0, [2, 2, 2]),
        (1, 4, [17, 1, 17]),
        (2, 0, [17, 1, 17]),
        (2, 4, [17, 1, 17]),
    ];

    #[test]
    fn rights_that_serve() {
        for (rw, flag_4, answers) in READS {
            for (read, expected) in answers.into_iter().enumerate() {
                // The other flags do not matter, nor do the READ body's own.
                for (flags, read_flags) in [0, 1, 2, 8, 11].into_iter().flat_map(|f| (0..16).map(move |r| (f, r))) {
                    let read_events = rights(IOMODE_READ, read as u32, read_flags);
                    let state = after(&[read_events, rights(IOMODE_RW, rw, flags | flag_4)].concat());
                    assert_eq!(number(state.locate(&IoRequest::read(9, 1))), expected);
                    let expected = if rw == 1 { 2 } else { 17 };
                    assert_eq!(number(state.locate(&IoRequest::write(9, 1))), expected);
                }
            }
        }
    }

    /// Flag 4 in the one body that both iomodes name bars RW only.
    #[test]
    fn one_body_in_both_iomodes() {
        for (flags, expected) in [(0, 2), (4, 1), (11, 2), (15, 1)] {
            let plan = LayoutPlan { flags, ..LayoutPlan::plain(1, 1) };
            let state = after(&[IOMODE_READ, IOMODE_RW].map(|iomode| granted(iomode, 0, LAST_BYTE, &plan)));
            let found = state.locate(&IoRequest::read(9, 1)).unwrap();
            assert_eq!((found.iomode.number(), found.slot), (expected, 0));
        }
    }

    #[test]
    fn the_order_is_20_5_17() {
        let bad = [(0, 0), (5, LAST_BYTE), (LAST_BYTE, 1), (LAST_BYTE, LAST_BYTE)];
        let whole = granted(IOMODE_RW, 0, LAST_BYTE, &LayoutPlan::plain(1, 1));
        for mut state in [State::default(), after(&[whole])] {
            let first_byte = state.locate(&IoRequest::write(0, 1));
            assert!(first_byte.is_ok() || first_byte == Err(Refusal::RightLacking));
            for direction in Direction::BOTH {
                for (offset, length) in bad {
                    let request = IoRequest { direction, offset, length };
                    assert_eq!(state.locate(&request), Err(Refusal::BadRange));
                    let mut short = state.clone();
                    short.set_borrowed(32_767);
                    assert_eq!(short.locate(&request), Err(Refusal::Unsound));
                }
            }
            state.set_byte(32_767, 1);
            assert_eq!(state.locate(&IoRequest::write(0, 1)), Err(Refusal::Unsound));
            assert_eq!(state.locate(&IoRequest::read(0, 1)), Err(Refusal::Unsound));
        }
    }

    #[test]
    fn pieces_end_with_the_request_or_the_segment() {
        let one = LayoutPlan::plain(1, 1);
        let state = after(&[granted(2, 10, 19, &one), granted(2, 30, LAST_BYTE, &one)]);
        for (offset, length, expected) in [(10, 9, 9), (10, 10, 10), (10, 11, 10), (15, LAST_BYTE - 15, 5), (19, 2, 1)]
        {
            assert_eq!(piece(&state, offset, length), expected);
        }
        assert_eq!(number(state.locate(&IoRequest::read(9, 5))), 17);
        assert_eq!(number(state.locate(&IoRequest::read(20, 5))), 17);
        assert_eq!(piece(&state, 30, LAST_BYTE - 30), LAST_BYTE - 30);
        assert_eq!(piece(&state, LAST_BYTE - 1, 1), 1);
        // The rest of this segment is 2^64 bytes.
        let whole = after(&[granted(1, 0, LAST_BYTE, &one)]);
        assert_eq!(piece(&whole, 0, LAST_BYTE), LAST_BYTE);
    }

    #[test]
    fn pieces_end_with_the_unit() {
        let state = after(&[granted(2, 7, 95, &striped(10, 3))]);
        for (offset, length, expected, stripe) in
            [(7, 50, 3, 0), (10, 50, 10, 1), (19, 50, 1, 1), (20, 9, 9, 2), (30, 11, 10, 0), (90, 50, 6, 0)]
        {
            let found = state.locate(&IoRequest::write(offset, length)).unwrap();
            assert_eq!((found.length, found.stripe, found.offset), (expected, stripe, offset));
        }
        let longest = after(&[granted(2, 0, LAST_BYTE, &striped(LAST_BYTE, 2))]);
        assert_eq!(piece(&longest, 0, LAST_BYTE), LAST_BYTE);
        assert_eq!(piece(&longest, LAST_BYTE - 1, 1), 1);
    }

    /// Two bodies of one server; the second one has the flags.
    fn two_bodies(flags: u32) -> [LayoutPlan; 2] {
        [(1, 0), (2, flags)].map(|(hint, flags)| LayoutPlan { hint, flags, ..LayoutPlan::plain(1, 1) })
    }

    /// Iomode, slot and piece of a read of 80 bytes.
    fn read_of_80(state: &State, offset: u64) -> (u32, u32, u64) {
        let found = state.locate(&IoRequest::read(offset, 80)).unwrap();
        (found.iomode.number(), found.slot, found.length)
    }

    /// RW has 10..59. READ ends before it, after it and with it, under another
    /// body, in slot 0, and under the same one.
    #[test]
    fn a_read_through_rw_ends_with_the_rw_segment() {
        let [one, other] = two_bodies(0);
        for (first, last) in [(10, 19), (12, 18), (0, 99), (0, LAST_BYTE), (10, 59), (18, 59)] {
            for (write, slot) in [(&other, 1), (&one, 0)] {
                let state = after(&[granted(1, first, last, &one), granted(2, 10, 59, write)]);
                assert_eq!(read_of_80(&state, 18), (2, slot, 42));
            }
        }
    }

    /// READ has 0..99, in slot 0. RW has flag 4, is recalled or is not held.
    #[test]
    fn a_read_through_read_ends_with_the_read_segment() {
        for (flags, rw_events) in [(4, 1), (0, 2), (4, 2), (0, 0)] {
            let [one, other] = two_bodies(flags);
            for (first, last) in [(10, 29), (10, 199), (10, 99)] {
                let rw = [granted(2, first, last, &other), recall(2, first, last)];
                let state = after(&[&[granted(1, 0, 99, &one)][..], &rw[..rw_events]].concat());
                assert_eq!(read_of_80(&state, 25), (1, 0, 75));
            }
        }
    }

    /// READ has 0..99 and RW 40..69: a read that starts before RW goes through
    /// READ, also over the bytes at which both serve, and so does one that
    /// starts after it.
    #[test]
    fn only_the_first_byte_is_looked_at() {
        let [one, other] = two_bodies(0);
        let state = after(&[granted(1, 0, 99, &one), granted(2, 40, 69, &other)]);
        let expected = [(0, (1, 0, 80)), (39, (1, 0, 61)), (40, (2, 1, 30)), (69, (2, 1, 1)), (70, (1, 0, 30))];
        for (offset, answer) in expected {
            assert_eq!(read_of_80(&state, offset), answer);
        }
    }

    /// READ: units of 7 on two servers. Byte 25 is in unit 3, up to 27, at
    /// stripe 1, where the mirrors have 2^32 - 10, 2^32 - 2 and 2^32 - 2: mirror
    /// 1. RW: units of 10 on three servers. Byte 25 is in unit 2, up to 29, at
    /// stripe 2, where the mirrors have 2^32 - 2 and 2^32 - 3: mirror 0. The
    /// first servers would give mirror 0 in READ's body and mirror 1 in RW's.
    #[test]
    fn stripe_and_mirror_are_those_of_the_body_that_serves() {
        let read = LayoutPlan { unit: 7, ..with_efficiencies(LayoutPlan::plain(3, 2), &[9, 1, 1]) };
        let write = LayoutPlan { unit: 10, ..with_efficiencies(LayoutPlan::plain(2, 3), &[1, 2]) };
        let through_read = Location { iomode: Iomode::Read, slot: 0, stripe: 1, offset: 25, length: 3, mirrors: 2 };
        let through_rw = Location { iomode: Iomode::ReadWrite, slot: 1, stripe: 2, offset: 25, length: 5, mirrors: 1 };
        for (flags, rw_events, expected) in [(0, 1, through_rw), (4, 1, through_read), (0, 2, through_read)] {
            let write = LayoutPlan { flags, ..write.clone() };
            let rw = [granted(2, 0, LAST_BYTE, &write), recall(2, 0, LAST_BYTE)];
            let state = after(&[&[granted(1, 0, LAST_BYTE, &read)][..], &rw[..rw_events]].concat());
            assert_eq!(state.locate(&IoRequest::read(25, 50)), Ok(expected));
        }
    }

    /// The mirror named at stripe 0 and at stripe 1, where the lowest of these
    /// numbers is the highest; with one server both bytes are at stripe 0.
    #[test]
    fn the_best_mirror() {
        let patterns = [
            (&[5][..], 1, 1),
            (&[1, 1], 1, 1),
            (&[1, 2], 2, 1),
            (&[3, 9, 9], 2, 1),
            (&[9, 3, 9], 1, 2),
            (&[1, 1 << 31], 2, 1),
            (&[u32::MAX, 1, u32::MAX], 1, 2),
            (&[255, 256, 1], 2, 4),
            (&[1, 2, 3, 4, 5, 6, 7, 8], 128, 1),
            (&[0; 8], 1, 1),
        ];
        for (efficiencies, first, second) in patterns {
            for (servers, flags) in [(1, 0), (2, 7), (1, 8), (2, 15)] {
                let plain = LayoutPlan::plain(efficiencies.len(), servers);
                let plan = LayoutPlan { flags, ..with_efficiencies(plain, efficiencies) };
                let events = [IOMODE_READ, IOMODE_RW].map(|m| granted(m, 0, LAST_BYTE, &plan));
                let state = after(&events);
                let mirrors = |request| state.locate(&request).unwrap().mirrors;
                for (offset, best) in [(4_095, first), (4_096, if servers == 1 { first } else { second })] {
                    let all = (1 << efficiencies.len()) - 1;
                    assert_eq!(mirrors(IoRequest::read(offset, 1)), best);
                    assert_eq!(mirrors(IoRequest::write(offset, 1)), if flags & 8 == 0 { all } else { best });
                }
            }
        }
    }

    #[test]
    fn a_write_looks_at_its_own_body() {
        let read = with_efficiencies(LayoutPlan::plain(2, 1), &[2, 1]);
        let write = with_efficiencies(LayoutPlan::plain(2, 1), &[1, 2]);
        // With flag 4 the read goes by the READ body.
        for (flags, read_mirrors, written) in [(0, 2, 3), (8, 2, 2), (4, 1, 3), (12, 1, 2)] {
            let read = LayoutPlan { flags: 12 - flags, ..read.clone() };
            let write = LayoutPlan { flags, ..write.clone() };
            let state = after(&[granted(1, 0, LAST_BYTE, &read), granted(2, 0, LAST_BYTE, &write)]);
            assert_eq!(state.locate(&IoRequest::read(0, 1)).unwrap().mirrors, read_mirrors);
            assert_eq!(state.locate(&IoRequest::write(0, 1)).unwrap().mirrors, written);
        }
    }

    /// Unit times servers multiplied out, in 128 bits.
    #[test]
    fn stripes_by_wide_numbers() {
        let mut random = Random::new(70);
        for _ in 0..300 {
            let unit = (random.next_u64() >> random.below(64)).max(1);
            let servers = random.between(2, 16);
            let state = after(&[granted(2, 0, LAST_BYTE, &striped(unit, servers))]);
            let offset = (random.next_u64() >> random.below(64)).min(LAST_BYTE - 1);
            let found = state.locate(&IoRequest::write(offset, LAST_BYTE - offset)).unwrap();
            let [offset, unit, length] = [offset, unit, found.length].map(u128::from);
            let in_stripe = offset % (unit * servers as u128);
            assert_eq!(u128::from(found.stripe), in_stripe / unit);
            let end = offset + length;
            assert!(end % unit == 0 || end == u128::from(LAST_BYTE), "{offset} in units of {unit}");
            assert_eq!(offset / unit, (end - 1) / unit);
        }
    }
}
