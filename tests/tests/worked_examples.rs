//! The worked examples of 01 that concern the table and where an I/O goes, with
//! the paper's numbers.

#[path = "support/side_by_side.rs"]
mod side_by_side;

use independent::event::{Event, RangeNumbers};
use independent::io_request::{Direction, IoRequest};
use independent::iomode::{Iomode, IOMODE_ANY, IOMODE_READ, IOMODE_RW};
use independent::range::LAST_BYTE;
use independent::samples::bodies::LayoutPlan;
use independent::samples::events::{grant, layout_return, recall, small_body};
use independent::segments::Right::{self, Granted, Recalled};
use side_by_side::SideBySide;

/// The segments of an iomode as first byte, last byte and right.
fn segments(both: &SideBySide, iomode: Iomode) -> Vec<(u64, u64, Right)> {
    let list = both.state.table.segments(iomode);
    list.iter().map(|segment| (segment.first, segment.last, segment.right)).collect()
}

fn rw(both: &SideBySide) -> Vec<(u64, u64, Right)> {
    segments(both, Iomode::ReadWrite)
}

/// A table on which these events were accepted.
fn after(events: &[Event]) -> SideBySide {
    let mut both = SideBySide::default();
    for event in events {
        assert_eq!(both.apply(event), 0, "{event:?}");
    }
    both
}

/// The answer's number to a request, 0 for accepted.
fn number(both: &SideBySide, request: &IoRequest) -> u8 {
    both.state.locate(request).map_or_else(|refusal| refusal.number(), |_| 0)
}

/// Stripe and piece of a read and of a write on a whole file of such a layout.
fn stripe_and_piece(unit: u64, servers: usize, offset: u64, length: u64) -> [(u32, u64); 2] {
    let body = LayoutPlan { unit, ..LayoutPlan::plain(1, servers) }.encode().bytes;
    let both = after(&[grant(IOMODE_RW, 0, LAST_BYTE, &body)]);
    Direction::BOTH.map(|direction| {
        let found = both.state.locate(&IoRequest { direction, offset, length }).unwrap();
        assert_eq!((found.offset, found.mirrors), (offset, 1));
        (found.stripe, found.length)
    })
}

/// "Unit 4,096, 3 servers: offset 4,095, length 2 gives stripe 0, piece 1."
/// "Same: offset 17,592,186,044,416 (2^44) gives stripe 1, not 0." "Unit 2^62, 4
/// servers: offset 13,835,058,055,282,163,712 gives stripe 3."
#[test]
fn stripes() {
    assert_eq!(stripe_and_piece(4_096, 3, 4_095, 2), [(0, 1); 2]);
    assert_eq!(stripe_and_piece(4_096, 3, 17_592_186_044_416, 1), [(1, 1); 2]);
    assert_eq!(stripe_and_piece(1 << 62, 4, 13_835_058_055_282_163_712, 9), [(3, 9); 2]);
}

/// "counting stripes from the segment's start instead of the file's"
#[test]
fn stripes_are_counted_from_the_start_of_the_file() {
    let body = LayoutPlan::plain(1, 3).encode().bytes;
    let both = after(&[grant(IOMODE_RW, 5_000, LAST_BYTE, &body)]);
    let found = |offset| both.state.locate(&IoRequest::write(offset, 9_000)).unwrap();
    assert_eq!((found(5_000).stripe, found(5_000).length), (1, 3_192));
    assert_eq!((found(8_192).stripe, found(8_192).length), (2, 4_096));
}

/// "An I/O request has no such special length", so none reaches the last byte.
#[test]
fn io_at_the_last_byte() {
    let both = after(&[grant(IOMODE_RW, 0, LAST_BYTE, &small_body(2))]);
    for direction in Direction::BOTH {
        for (offset, length, expected) in [
            (u64::MAX, 1, 5),
            (u64::MAX, u64::MAX, 5),
            (u64::MAX - 1, 2, 5),
            (1, u64::MAX, 5),
            (0, 0, 5),
            (u64::MAX - 1, 1, 0),
            (0, u64::MAX, 0),
        ] {
            let request = IoRequest { direction, offset, length };
            assert_eq!(number(&both, &request), expected, "{request:?}");
        }
    }
}

/// "Range offset 2^64 - 1: length 2^64 - 1 is one byte; length 1 is refused 5;
/// length 0 is refused 5."
#[test]
fn the_last_byte() {
    let mut both = after(&[grant(IOMODE_RW, LAST_BYTE, LAST_BYTE, &small_body(2))]);
    assert_eq!(rw(&both), [(u64::MAX, u64::MAX, Granted(0))]);
    for length in [1, 0] {
        let numbers = RangeNumbers { offset: u64::MAX, length, iomode: IOMODE_RW };
        assert_eq!(both.apply(&Event::Return(numbers)), 5);
        assert_eq!(both.apply(&Event::Recall(numbers)), 5);
    }
    let numbers = RangeNumbers { offset: u64::MAX, length: u64::MAX, iomode: IOMODE_RW };
    assert_eq!(both.apply(&Event::Return(numbers)), 0);
    assert_eq!(rw(&both), []);
}

/// "Grant RW 0..99, return 40..59: segments 0..39 and 60..99."
#[test]
fn a_return_inside_a_segment() {
    let both = after(&[grant(2, 0, 99, &small_body(2)), layout_return(2, 40, 59)]);
    assert_eq!(rw(&both), [(0, 39, Granted(0)), (60, 99, Granted(0))]);
}

/// "Then grant 40..59 under the same body: one segment 0..99. Under another
/// body, with the first still held at 0..39 and 60..99: three segments."
#[test]
fn the_hole_granted_again() {
    let hole = [grant(2, 0, 99, &small_body(2)), layout_return(2, 40, 59)];
    let mut same = after(&hole);
    assert_eq!(same.apply(&grant(2, 40, 59, &small_body(2))), 0);
    assert_eq!(rw(&same), [(0, 99, Granted(0))]);
    let mut other = after(&hole);
    assert_eq!(other.apply(&grant(2, 40, 59, &small_body(3))), 0);
    assert_eq!(rw(&other), [(0, 39, Granted(0)), (40, 59, Granted(1)), (60, 99, Granted(0))]);
}

/// "Recall RW 10..19 of 0..99: three segments; writing at 10 is 17, at 20 is
/// allowed."
#[test]
fn a_recall_inside_a_segment() {
    let both = after(&[grant(2, 0, 99, &small_body(2)), recall(2, 10, 19)]);
    assert_eq!(rw(&both), [(0, 9, Granted(0)), (10, 19, Recalled(0)), (20, 99, Granted(0))]);
    let write = |offset| number(&both, &IoRequest::write(offset, 1));
    assert_eq!([9, 10, 19, 20, 99, 100].map(write), [0, 17, 17, 0, 0, 17]);
}

/// "A recall on an empty table is 25; a return there is accepted."
#[test]
fn an_empty_table() {
    for iomode in [IOMODE_READ, IOMODE_RW, IOMODE_ANY] {
        let mut both = SideBySide::default();
        assert_eq!(both.apply(&recall(iomode, 0, LAST_BYTE)), 25);
        assert_eq!(both.apply(&layout_return(iomode, 0, LAST_BYTE)), 0);
    }
}

/// "Unit 0 with 2 servers and unit 1 with 1 server are 10", in a grant too.
#[test]
fn unit_and_server_count_disagree() {
    let mut both = SideBySide::default();
    for (unit, servers) in [(0, 2), (1, 1)] {
        let body = LayoutPlan { unit, ..LayoutPlan::plain(1, servers) }.encode().bytes;
        assert_eq!(both.apply(&grant(2, 0, 99, &body)), 10);
    }
}

/// "32 segments in an iomode and a return inside one, touching neither of its
/// ends: 23. The same return of the whole file: accepted."
#[test]
fn thirty_two_segments() {
    for iomode in [IOMODE_READ, IOMODE_RW] {
        let events: Vec<Event> =
            (0..32).map(|place| grant(iomode, place * 10, place * 10 + 4, &small_body(2))).collect();
        let mut both = after(&events);
        for place in 0..32 {
            assert_eq!(both.apply(&layout_return(iomode, place * 10 + 2, place * 10 + 2)), 23);
            assert_eq!(both.apply(&recall(IOMODE_ANY, place * 10 + 2, place * 10 + 2)), 23);
        }
        assert_eq!(both.apply(&grant(iomode, 999, 999, &small_body(2))), 23);
        assert_eq!(both.clone().apply(&recall(iomode, 0, LAST_BYTE)), 0);
        assert_eq!(both.apply(&layout_return(iomode, 0, LAST_BYTE)), 0);
        assert!(both.state == Default::default());
    }
}

/// "8 bodies held: a ninth, on bytes not held, is 24; after one is wholly
/// returned it is accepted in that slot."
#[test]
fn eight_bodies() {
    let events: Vec<Event> = (0..8).map(|slot| grant(2, slot * 10, slot * 10 + 9, &small_body(slot as u32))).collect();
    for slot in 0..8 {
        let mut both = after(&events);
        let ninth = grant(2, 100, 109, &small_body(8));
        assert_eq!(both.apply(&ninth), 24);
        assert_eq!(both.apply(&layout_return(2, slot * 10, slot * 10 + 8)), 0);
        assert_eq!(both.apply(&ninth), 24);
        assert_eq!(both.apply(&layout_return(2, slot * 10 + 9, slot * 10 + 9)), 0);
        assert_eq!(both.apply(&ninth), 0);
        assert_eq!(rw(&both).last(), Some(&(100, 109, Granted(slot as u32))));
    }
}

/// "a READ recall that took RW away; a return that dropped the whole segment it
/// touched"
#[test]
fn mistakes_of_the_old_code() {
    let mut both = after(&[
        grant(1, 0, 99, &small_body(2)),
        grant(2, 0, 99, &small_body(2)),
        recall(1, 0, LAST_BYTE),
        layout_return(2, 0, 0),
    ]);
    assert_eq!(segments(&both, Iomode::Read), [(0, 99, Recalled(0))]);
    assert_eq!(number(&both, &IoRequest::read(1, 1)), 0);
    assert_eq!(number(&both, &IoRequest::write(0, 1)), 17);
    assert_eq!(rw(&both), [(1, 99, Granted(0))]);
    assert_eq!(both.apply(&grant(1, 50, 50, &small_body(2))), 22);
    assert_eq!(both.apply(&grant(1, 50, 150, &small_body(3))), 21);
}
