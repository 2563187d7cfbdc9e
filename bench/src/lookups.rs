//! Where an I/O goes.

use crate::bodies::{judged_by_stripe, UNIT};
use crate::forms::plain_location;
use crate::held::{Held, STEP};
use crate::race::{Race, Row};
use crate::tuned::by_value;
use crate::tuned::locate::{locate_read, locate_write, Location};
use basilothyn::raw::{self, LocateResult};
use independent::io_request::IoRequest;
use independent::locate::locate;
use std::hint::black_box;

type Holding = fn(u64, u64) -> Held;

/// Tables that hold READ, the iomode that a read then uses, and the rows' words for it.
const WITH_READ: [(Holding, u32, &str); 3] = [
    (Held::in_read, 1, "READ alone"),
    (|segments, slots| Held::in_both(segments, slots, 0), 2, "both iomodes serve"),
    (|segments, slots| Held::in_both(segments, slots, 4), 1, "RW with flag 4 beside READ"),
];

/// Mirrors of two servers each; the best one is the last at stripe 0 and mirror 0 at stripe 1.
const JUDGED: [usize; 2] = [2, 8];
const WRITE_ONE_MIRROR: u32 = 8;

/// Of a segment's bytes; on an empty table both are refused with 17. The write names all three mirrors.
pub fn rows(held: &Held) -> Vec<Row> {
    let offset = middle(held);
    let written = raw::locate_write(held.core, &held.store, offset, STEP).mirrors;
    assert_eq!(written, if held.segments == 0 { 0 } else { 7 });
    vec![write(held, offset, &name("write", held)), read(held, offset, &name("read", held))]
}

/// Reads of bytes that are granted in READ, or in both iomodes.
pub fn rows_with_read(segments: u64, slots: u64) -> Vec<Row> {
    let row = |(holding, iomode, rights): (Holding, u32, &str)| {
        let held = holding(segments, slots);
        let offset = middle(&held);
        assert_eq!(raw::locate_read(held.core, &held.store, offset, STEP).iomode, iomode, "{rights}");
        read(&held, offset, &format!("locate for a read, {rights}, {}", held.name()))
    };
    WITH_READ.map(row).into()
}

/// Reads, and writes of one mirror, at two stripes that have another best mirror.
pub fn rows_by_stripe() -> Vec<Row> {
    let mut rows = Vec::new();
    for mirrors in JUDGED {
        let held = Held::under(&judged_by_stripe(mirrors, 2, WRITE_ONE_MIRROR));
        for (stripe, best) in [(0, 1 << (mirrors - 1)), (1, 1)] {
            let offset = stripe * UNIT;
            for found in [raw::locate_read, raw::locate_write].map(|ask| ask(held.core, &held.store, offset, STEP)) {
                assert_eq!((u64::from(found.stripe), found.mirrors), (stripe, best));
            }
            let place = format!("{mirrors} mirrors of 2 servers, stripe {stripe}, {}", held.name());
            rows.push(write(&held, offset, &format!("locate for a write of one mirror, {place}")));
            rows.push(read(&held, offset, &format!("locate for a read, {place}")));
        }
    }
    rows
}

/// The first byte of a segment in the middle of the list.
fn middle(held: &Held) -> u64 {
    2 * (held.segments / 2) * STEP
}

fn name(direction: &str, held: &Held) -> String {
    let refused = if held.segments == 0 { ", refused" } else { "" };
    format!("locate for a {direction}{refused}, {}", held.name())
}

fn write(held: &Held, offset: u64, name: &str) -> Row {
    let request = IoRequest::write(offset, STEP);
    let found = raw::locate_write(held.core, &held.store, offset, STEP);
    assert_eq!(found, by_value::locate_write(held.core, &held.store, offset, STEP));
    check(held, &request, found, locate_write(&held.tuned, &held.store, offset, STEP));
    let core = || raw::locate_write(*black_box(&held.core), black_box(&held.store), offset, STEP);
    Race::new(name, core, || locate(black_box(&held.plain), black_box(&held.store), &request))
        .tuned(|| locate_write(black_box(&held.tuned), black_box(&held.store), offset, STEP))
        .by_value(|| by_value::locate_write(*black_box(&held.core), black_box(&held.store), offset, STEP))
        .run()
}

fn read(held: &Held, offset: u64, name: &str) -> Row {
    let request = IoRequest::read(offset, STEP);
    let found = raw::locate_read(held.core, &held.store, offset, STEP);
    assert_eq!(found, by_value::locate_read(held.core, &held.store, offset, STEP));
    check(held, &request, found, locate_read(&held.tuned, &held.store, offset, STEP));
    let core = || raw::locate_read(*black_box(&held.core), black_box(&held.store), offset, STEP);
    Race::new(name, core, || locate(black_box(&held.plain), black_box(&held.store), &request))
        .tuned(|| locate_read(black_box(&held.tuned), black_box(&held.store), offset, STEP))
        .by_value(|| by_value::locate_read(*black_box(&held.core), black_box(&held.store), offset, STEP))
        .run()
}

/// All three answer the same.
fn check(held: &Held, request: &IoRequest, core: LocateResult, tuned: Result<Location, u32>) {
    let LocateResult { refusal, iomode, slot, stripe, offset, length, mirrors } = core;
    let core = if refusal == 0 { Ok(Location { iomode, slot, stripe, offset, length, mirrors }) } else { Err(refusal) };
    let plain = plain_location(&held.plain, &held.store, request);
    assert_eq!([core, tuned], [plain; 2]);
    assert_eq!(core.is_ok(), held.segments > 0);
}
