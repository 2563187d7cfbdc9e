//! Cases of `layout4` structures.

use super::layouts::{body_of_length, limits};
use independent::cases::{kind, CaseFileWriter};
use independent::samples::bodies::{Layout4Head, LayoutPlan};
use independent::samples::random::Random;
use independent::samples::wire::{extended, overwritten, Item};

/// Offsets and lengths whose pairs show every shape of a range.
pub const EDGES: [u64; 12] = [
    0,
    1,
    2,
    4_095,
    (1 << 32) - 1,
    1 << 32,
    (1 << 63) - 1,
    1 << 63,
    (1 << 63) + 1,
    u64::MAX - 2,
    u64::MAX - 1,
    u64::MAX,
];

pub fn add(cases: &mut CaseFileWriter) {
    for layout in all_layouts() {
        cases.record(kind::LAYOUT4, &layout);
    }
}

/// Every `layout4` of these cases, good and bad.
pub fn all_layouts() -> Vec<Vec<u8>> {
    let mut layouts = Vec::new();
    add_ranges(&mut layouts);
    add_iomodes_and_types(&mut layouts);
    add_body_lengths(&mut layouts);
    add_cuts(&mut layouts);
    add_orders(&mut layouts);
    add_tails(&mut layouts);
    add_bodies(&mut layouts);
    add_damage(&mut layouts);
    layouts
}

fn smallest_body() -> Vec<u8> {
    LayoutPlan::plain(1, 1).encode().bytes
}

fn add_ranges(layouts: &mut Vec<Vec<u8>>) {
    for offset in EDGES {
        for length in EDGES {
            let head = Layout4Head { offset, length, ..Layout4Head::whole_file() };
            layouts.push(head.around(&smallest_body()));
        }
    }
}

fn add_iomodes_and_types(layouts: &mut Vec<Vec<u8>>) {
    let whole = Layout4Head::whole_file();
    for iomode in [0, 1, 2, 3, 4, 5, 257, 258, 1 << 24, 1 << 25, 1 << 31, u32::MAX] {
        layouts.push(Layout4Head { iomode, ..whole }.around(&smallest_body()));
    }
    for layout_type in [0, 1, 2, 3, 4, 5, 6, 260, 1 << 26, 1 << 31, u32::MAX] {
        layouts.push(Layout4Head { layout_type, ..whole }.around(&smallest_body()));
    }
}

/// Body lengths that are true, too short, too long, or above the limit.
fn add_body_lengths(layouts: &mut Vec<Vec<u8>>) {
    let head = Layout4Head::whole_file();
    let body = smallest_body();
    let with_more = extended(&body, &[0; 8]);
    for length in [0, 1, 4, 16, 56, 72, 75, 76, 77, 79, 80, 81, 82, 83, 84, 88, 4_088, 4_090] {
        layouts.push(head.claiming(length, &body));
        layouts.push(head.claiming(length, &with_more));
    }
    for length in [0, 1, 4_088, 4_089, 4_090, 4_091, 4_092, 4_096, 1 << 16, 1 << 31, u32::MAX] {
        layouts.push(head.claiming(length, &[]));
    }
    for length in [4_088, 4_089, 4_090, 4_091] {
        layouts.push(head.around(&body_of_length(length)));
    }
    // 4,090 bytes are there, but only one of the two padding bytes.
    let longest = body_of_length(4_090);
    layouts.push(head.claiming(4_090, &extended(&longest, &[0])));
}

fn add_cuts(layouts: &mut Vec<Vec<u8>>) {
    let smallest = Layout4Head::whole_file().around(&smallest_body());
    layouts.extend((0..smallest.len()).map(|length| smallest[..length].to_vec()));
}

/// Two faults in the head: range, iomode, type, body length, body.
fn add_orders(layouts: &mut Vec<Vec<u8>>) {
    let whole = Layout4Head::whole_file();
    let no_range = Layout4Head { length: 0, ..whole };
    let no_iomode = Layout4Head { iomode: 3, ..whole };
    let no_type = Layout4Head { layout_type: 1, ..whole };
    let heads = [
        no_range,
        no_iomode,
        no_type,
        Layout4Head { iomode: 3, ..no_range },
        Layout4Head { layout_type: 1, ..no_range },
        Layout4Head { layout_type: 1, ..no_iomode },
        Layout4Head { iomode: 0, ..no_type },
    ];
    for head in heads {
        for cut in [15, 16, 19, 20, 23, 24, 27, 28] {
            layouts.push(head.claiming(80, &[])[..cut].to_vec());
        }
        layouts.push(head.claiming(4_091, &[]));
        layouts.push(head.claiming(80, &[]));
        layouts.push(head.around(&extended(&smallest_body(), &[0; 4])));
    }
}

/// Bytes after the body, and its padding.
fn add_tails(layouts: &mut Vec<Vec<u8>>) {
    let head = Layout4Head::whole_file();
    let smallest = head.around(&smallest_body());
    for more in [&[0][..], &[1], &[0; 4], &[0xff; 4], &[0; 28]] {
        layouts.push(extended(&smallest, more));
    }
    for (length, tail) in [
        (81, [0, 0, 0, 0]),
        (81, [0, 1, 0, 0]),
        (82, [0, 0, 1, 1]),
        (83, [0, 0, 0, 1]),
        (79, [0, 0, 0, 0]),
        (78, [1, 1, 1, 1]),
    ] {
        layouts.push(head.claiming(length, &extended(&smallest_body(), &tail)));
        layouts.push(head.claiming(length, &extended(&smallest_body(), &tail[..1])));
    }
}

/// Refused bodies keep their numbers inside a `layout4`, and larger bodies are
/// accepted there.
fn add_bodies(layouts: &mut Vec<Vec<u8>>) {
    let head = Layout4Head { offset: 4_096, length: 1 << 40, iomode: 1, layout_type: 4 };
    let wire = LayoutPlan::plain(2, 1).encode();
    for body in limits(&wire) {
        layouts.push(head.around(&body));
    }
    layouts.push(head.around(&wire.with_uhyper(Item::Unit, 0, 1)));
    layouts.push(head.around(&wire.with_uint(Item::ServerCount, 1, 2)));
    layouts.push(head.around(&wire.with_uint(Item::Flags, 0, 32)));
    for place in wire.padding_offsets() {
        let corrupted = overwritten(&wire.bytes, place, &[4]);
        layouts.push(extended(&head.around(&corrupted), &[0]));
        layouts.push(head.around(&corrupted));
    }
    for mirrors in 1..=8 {
        layouts.push(head.around(&LayoutPlan::plain(mirrors, 9 - mirrors).encode().bytes));
    }
    layouts.push(head.around(&LayoutPlan::two_by_two().encode().bytes));
}

fn add_damage(layouts: &mut Vec<Vec<u8>>) {
    let mut random = Random::new(65);
    let layout = Layout4Head::whole_file().around(&smallest_body());
    for _ in 0..60 {
        layouts.push(random.one_byte_changed(&layout));
    }
}
