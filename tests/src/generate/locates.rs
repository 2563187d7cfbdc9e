//! Where reads and writes go: rights, stripes, pieces and mirrors.

use super::aimed_requests::aimed_request;
use super::judged_mirrors;
use super::layout4s::EDGES;
use super::striped_bodies::striped_body;
use independent::cases::CaseFileWriter;
use independent::event::Event;
use independent::io_request::IoRequest;
use independent::iomode::IOMODE_ANY;
use independent::range::LAST_BYTE;
use independent::samples::bodies::{with_efficiencies, LayoutPlan};
use independent::samples::events::{grant, layout_return, recall};
use independent::samples::random::Random;
use independent::state::State;
use independent::table_cases::TableCase;

/// 2^44, where a unit number no longer fits 32 bits.
pub const FAR: u64 = 1 << 44;

/// From here on READ is granted too, where RW has an odd number of servers.
const READ_STRIPES: u64 = 1 << 40;

/// Unit and servers. Some products of the two do not fit 64 bits.
const STRIPINGS: [(u64, usize); 18] = [
    (1, 2),
    (3, 3),
    (3, 16),
    (10, 7),
    (4_095, 3),
    (4_096, 3),
    (4_097, 5),
    (3 << 16, 4),
    ((1 << 32) - 1, 2),
    (1 << 32, 3),
    ((1 << 32) + 4_096, 3),
    (FAR, 5),
    (FAR + 1, 6),
    (1 << 62, 4),
    ((1 << 62) + 1, 7),
    (1 << 63, 2),
    ((1 << 63) + 1, 3),
    (u64::MAX, 2),
];

/// Efficiencies of the mirrors at stripe 0; at the other one the lowest is the
/// highest.
const EFFICIENCIES: [&[u32]; 13] = [
    &[5],
    &[1, 1],
    &[1, 2],
    &[1, 2, 4],
    &[0, 0, 0],
    &[1, 3, 3],
    &[3, 1, 3],
    &[1, 1 << 31],
    &[255, 256, 1, 256, 9],
    &[1, 1, 1, 4, 4, 4],
    &[1, u32::MAX, u32::MAX],
    &[1, 2, 3, 4, 5, 6, 7, 8],
    &[7; 8],
];

/// A random table has a grant of each iomode in each stretch of so many bytes.
const WIDTHS: [u64; 12] = [40, 300, 3_000, 20_000, 20_000, FAR, FAR, 1 << 33, 1 << 34, 1 << 48, 1 << 61, 1 << 62];
/// How many requests are put to a random table.
const REQUESTS_A_TABLE: usize = 30;

pub fn add(cases: &mut CaseFileWriter) {
    add_worked_examples(cases);
    STRIPINGS.iter().for_each(|&(unit, servers)| add_striping(cases, unit, servers));
    add_rights(cases);
    add_both_iomodes(cases);
    add_small_file(cases);
    add_mirrors(cases);
    judged_mirrors::add(cases);
    add_random_tables(cases);
    add_request_numbers(cases);
    add_last_bytes(cases);
    add_less_borrowed(cases);
}

/// The same bytes read and written.
pub fn ask(cases: &mut CaseFileWriter, offset: u64, length: u64) {
    cases.locate(IoRequest::read(offset, length));
    cases.locate(IoRequest::write(offset, length));
}

/// These events on an empty table.
pub fn start_with(cases: &mut CaseFileWriter, events: &[Event]) {
    cases.table(&TableCase::Reset);
    events.iter().for_each(|event| cases.event(event.clone()));
}

fn striped(unit: u64, servers: usize) -> Vec<u8> {
    LayoutPlan { unit, ..LayoutPlan::plain(1, servers) }.encode().bytes
}

fn add_worked_examples(cases: &mut CaseFileWriter) {
    start_with(cases, &[grant(2, 0, LAST_BYTE, &striped(4_096, 3))]);
    for (offset, length) in [(4_095, 2), (4_096, 2), (FAR, 1), (FAR, 4_096), (FAR - 1, 2)] {
        ask(cases, offset, length);
    }
    start_with(cases, &[grant(2, 0, LAST_BYTE, &striped(1 << 62, 4))]);
    for unit_number in 0..4 {
        ask(cases, unit_number << 62, 1 << 62);
    }
    start_with(cases, &[grant(2, 0, 99, &striped(0, 1)), recall(2, 10, 19)]);
    for offset in [0, 9, 10, 19, 20, 99, 100] {
        ask(cases, offset, 30);
    }
}

/// The start of each unit of the first round, and ends of units there, beyond
/// 2^44 and near the file's end. Where READ is granted too, its stripes are
/// asked for once RW is gone.
fn add_striping(cases: &mut CaseFileWriter, unit: u64, servers: usize) {
    start_with(cases, &[grant(2, 0, LAST_BYTE, &striped(unit, servers))]);
    if servers % 2 == 1 {
        cases.event(grant(1, READ_STRIPES, LAST_BYTE, &striped(unit, servers - 1)));
    }
    let requests = striping_requests(unit, servers);
    requests.iter().for_each(|&(offset, length)| ask(cases, offset, length));
    if servers % 2 == 1 {
        let end_rw = if unit % 2 == 1 { layout_return } else { recall };
        cases.event(end_rw(2, 0, LAST_BYTE));
        let of_read = requests.iter().filter(|(offset, _)| *offset >= READ_STRIPES);
        of_read.for_each(|&(offset, length)| cases.locate(IoRequest::read(offset, length)));
    }
}

/// Offsets and lengths for units of this size on so many servers.
fn striping_requests(unit: u64, servers: usize) -> Vec<(u64, u64)> {
    let far_start = FAR - FAR % unit;
    let last_start = u64::MAX - u64::MAX % unit;
    let first_round = (0..servers as u64).filter_map(|number| unit.checked_mul(number));
    let others = [unit, FAR, far_start, 1 << 63, last_start - unit, last_start, u64::MAX];
    let ends = others.into_iter().flat_map(|offset| [offset.saturating_sub(1), offset]);
    let offsets = first_round.chain(ends);
    let request = |(place, offset): (usize, u64)| {
        let longest = u64::MAX - offset;
        let length = [longest, 1, unit, 2, unit - offset % unit][place % 5];
        (offset, length.min(longest))
    };
    offsets.enumerate().map(request).collect()
}

/// READ on 0..99 and RW on 50..149, each none, granted or recalled, under
/// bodies of every flag.
fn add_rights(cases: &mut CaseFileWriter) {
    for flags in [0, 4, 8, 13] {
        let body = |flags| LayoutPlan { flags, ..LayoutPlan::plain(2, 1) }.encode().bytes;
        let read = [grant(1, 0, 99, &body(15 - flags)), recall(1, 0, 99)];
        let write = [grant(2, 50, 149, &body(flags)), recall(2, 50, 149)];
        for (read_right, write_right) in (0..9).map(|pair| (pair / 3, pair % 3)) {
            start_with(cases, &read[..read_right]);
            write[..write_right].iter().for_each(|event| cases.event(event.clone()));
            for offset in [10, 49, 50, 99, 100, 149, 150] {
                ask(cases, offset, 60);
            }
        }
    }
}

/// RW on 1,100..1,199 and 1,300..1,399, and READ inside the first and around
/// the second, under another body and under the same one; then RW recalled.
/// These bytes are in the second stripe of RW's body, and READ's other body has
/// one server and two mirrors: stripe, mirror and piece tell which one serves.
fn add_both_iomodes(cases: &mut CaseFileWriter) {
    let in_one = [1_100, 1_119, 1_150, 1_199, 1_280, 1_299, 1_400, 1_449, 1_450];
    let in_both = [1_120, 1_121, 1_135, 1_148, 1_149, 1_300, 1_301, 1_333, 1_366, 1_398, 1_399];
    // The flags of RW's body and of READ's other one: flag 4 in each, or not.
    for (flags, other_flags) in [(0, 15), (4, 4), (11, 0), (15, 8)] {
        let write = LayoutPlan { unit: 1_000, flags, ..LayoutPlan::plain(1, 2) }.encode().bytes;
        let other = LayoutPlan { flags: other_flags, ..LayoutPlan::plain(2, 1) }.encode().bytes;
        for read in [&other, &write] {
            let rw = [(1_100, 1_199), (1_300, 1_399)].map(|(first, last)| grant(2, first, last, &write));
            start_with(cases, &rw);
            cases.event(grant(1, 1_120, 1_149, read));
            cases.event(grant(1, 1_280, 1_449, read));
            in_one.iter().chain(&in_both).for_each(|&offset| cases.locate(IoRequest::read(offset, 200)));
            cases.event(recall(2, 0, LAST_BYTE));
            for offset in [1_119, 1_120, 1_149, 1_300, 1_399] {
                cases.locate(IoRequest::read(offset, 200));
            }
        }
    }
}

/// Every byte of a small file, in which segments start and end inside units.
fn add_small_file(cases: &mut CaseFileWriter) {
    let events = [
        grant(2, 5, 16, &striped(10, 3)),
        grant(2, 17, 40, &striped(7, 2)),
        grant(2, 50, LAST_BYTE, &striped_body(1)),
        grant(1, 0, 7, &striped_body(2)),
        grant(1, 12, 30, &striped(3, 5)),
        recall(1, 20, 25),
        recall(2, 33, 34),
        layout_return(IOMODE_ANY, 28, 28),
    ];
    start_with(cases, &events);
    for offset in 0..70 {
        ask(cases, offset, 100);
        ask(cases, offset, 1 + offset % 7);
    }
}

/// Every choice of mirrors, with another one in the body of READ, which serves
/// once RW is recalled.
fn add_mirrors(cases: &mut CaseFileWriter) {
    for (place, efficiencies) in EFFICIENCIES.iter().enumerate() {
        for flags in [0, 8] {
            let servers = 1 + (place + flags as usize / 8) % 2;
            let plain = LayoutPlan::plain(efficiencies.len(), servers);
            let plan = LayoutPlan { flags, ..with_efficiencies(plain, efficiencies) };
            start_with(cases, &[grant(2, 0, LAST_BYTE, &plan.encode().bytes)]);
            ask(cases, 5_000, 1);
            let mut turned = plan;
            turned.mirrors.reverse();
            cases.event(grant(1, 0, LAST_BYTE, &turned.encode().bytes));
            ask(cases, 5_000, 10_000);
            ask(cases, 0, 1);
            cases.event(recall(2, 0, LAST_BYTE));
            ask(cases, 5_000, 10_000);
        }
    }
}

/// Bodies of many stripings side by side, and requests at the ends of their
/// segments and units.
fn add_random_tables(cases: &mut CaseFileWriter) {
    let mut random = Random::new(71);
    for (table, &width) in WIDTHS.iter().enumerate() {
        let mut state = State::default();
        let mut events = Vec::new();
        for place in 0..8 {
            let first = width * (place / 2) + random.next_u64() % (width / 2);
            let last = first + random.next_u64() % (width / 2);
            let body = striped_body((table * 8) as u32 + place as u32);
            events.push(grant(1 + place as u32 % 2, first, last, &body));
        }
        events.push(recall(IOMODE_ANY, 0, width / 3));
        for event in &events {
            // A refused one leaves the state as it is.
            let _ = state.apply(event);
        }
        start_with(cases, &events);
        for _ in 0..REQUESTS_A_TABLE {
            cases.locate(aimed_request(&mut random, &state));
        }
    }
}

/// Offsets and lengths of every shape, on a whole file: "no such special
/// length".
fn add_request_numbers(cases: &mut CaseFileWriter) {
    start_with(cases, &[grant(2, 0, LAST_BYTE, &striped(5_000, 2))]);
    for offset in EDGES {
        for length in EDGES {
            ask(cases, offset, length);
        }
        ask(cases, offset, u64::MAX - offset);
        ask(cases, offset, (u64::MAX - offset).wrapping_add(1));
    }
}

/// The last byte is held, but no request reaches it; the one before it is the
/// last that is read or written.
fn add_last_bytes(cases: &mut CaseFileWriter) {
    for first in [0, LAST_BYTE - 5, LAST_BYTE - 1, LAST_BYTE] {
        for body in [striped(0, 1), striped(4, 2)] {
            start_with(cases, &[grant(2, first, LAST_BYTE, &body), grant(1, first, first, &body)]);
            for back in 0..7 {
                ask(cases, LAST_BYTE - back, 1);
                ask(cases, LAST_BYTE - back, back);
                ask(cases, LAST_BYTE - back, LAST_BYTE);
            }
        }
    }
}

/// 20 before 5 and 17, and the same answers as before once all is borrowed again.
fn add_less_borrowed(cases: &mut CaseFileWriter) {
    start_with(cases, &[grant(2, 100, 199, &striped_body(4)), grant(1, 0, 99, &striped_body(5))]);
    for length in [32_768, 0, 32_767, 28_672, 32_768] {
        cases.table(&TableCase::SetBorrowed(length));
        for (offset, length) in [(0, 9), (150, 99), (300, 1), (7, 0), (LAST_BYTE, 1)] {
            ask(cases, offset, length);
        }
    }
}
