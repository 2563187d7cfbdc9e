//! Cases of error report bodies to be read; those with I/O statistics are in
//! [`super::statistics_read`].

use super::layout4s::EDGES;
use independent::cases::{kind, CaseFileWriter};
use independent::report::DeviceError;
use independent::samples::bodies::{encode_reports, good_error, ReportPlan};
use independent::samples::random::Random;
use independent::samples::wire::{extended, Item, Wire};

pub fn add(cases: &mut CaseFileWriter) {
    for body in all_bodies() {
        cases.record(kind::REPORT_READ, &body);
    }
}

fn all_bodies() -> Vec<Vec<u8>> {
    let mut bodies = Vec::new();
    add_shapes(&mut bodies);
    add_ranges(&mut bodies);
    add_errors(&mut bodies);
    add_limits(&mut bodies);
    add_cuts(&mut bodies);
    add_tails(&mut bodies);
    add_two_faults(&mut bodies);
    add_damage(&mut bodies);
    bodies
}

/// Reports with the given error counts.
pub fn reports(error_counts: &[usize]) -> Vec<ReportPlan> {
    let report = |(place, &errors)| ReportPlan::with_errors(place as u8, errors);
    error_counts.iter().enumerate().map(report).collect()
}

fn encoded(error_counts: &[usize]) -> Wire {
    encode_reports(&reports(error_counts), 0)
}

fn add_shapes(bodies: &mut Vec<Vec<u8>>) {
    for count in 0..=8 {
        bodies.push(encoded(&[1, 2, 1, 3, 1, 2, 1, 4][..count]).bytes);
    }
    for errors in 1..=16 {
        bodies.push(encoded(&[errors]).bytes);
    }
    bodies.push(encoded(&[16; 8]).bytes);
    bodies.push(encoded(&[16, 1, 16]).bytes);
}

fn add_ranges(bodies: &mut Vec<Vec<u8>>) {
    for offset in EDGES {
        for length in EDGES {
            let report = ReportPlan { offset, length, ..ReportPlan::with_errors(1, 1) };
            bodies.push(encode_reports(&[report], 0).bytes);
        }
    }
    let wire = encoded(&[1, 1, 1]);
    for which in 0..3 {
        bodies.push(wire.with_uhyper(Item::Length, which, 0));
        bodies.push(wire.with_uhyper(Item::Length, which, u64::MAX));
        bodies.push(wire.with_uhyper(Item::Offset, which, u64::MAX));
    }
}

/// Statuses and operations, good and bad, first and later.
fn add_errors(bodies: &mut Vec<Vec<u8>>) {
    let one = |status, operation| {
        let errors = vec![DeviceError { status, operation, ..good_error(1, 0) }];
        encode_reports(&[ReportPlan { errors, ..ReportPlan::with_errors(1, 0) }], 0).bytes
    };
    for operation in (0..=40).chain([69, 261, 10_044, 5 << 24, 25 << 24, 38 << 8, u32::MAX]) {
        bodies.push(one(5, operation));
    }
    for status in [0, 1, 2, 13, 70, 10_001, 1 << 31, u32::MAX] {
        bodies.push(one(status, 25));
        bodies.push(one(status, 9));
    }
    let wire = encoded(&[2, 3]);
    for which in 0..5 {
        bodies.push(wire.with_uint(Item::Status, which, 0));
        bodies.push(wire.with_uint(Item::Operation, which, 4));
    }
}

fn add_limits(bodies: &mut Vec<Vec<u8>>) {
    let wire = encoded(&[1, 2]);
    let counts = [
        (Item::ReportCount, &[9, 10, 256, 1 << 31, u32::MAX][..]),
        (Item::ErrorCount, &[0, 17, 256, 1 << 31, u32::MAX]),
        (Item::StatisticsCount, &[1, 8, 9, 256, 1 << 24, 1 << 31, u32::MAX]),
    ];
    for (item, values) in counts {
        let last = wire.offsets(item).len() - 1;
        for &value in values {
            let body = wire.with_uint(item, last, value);
            bodies.push(body[..wire.offsets(item)[last] + 4].to_vec());
            bodies.push(extended(&body, &[0; 4]));
            bodies.push(body);
            bodies.push(wire.with_uint(item, 0, value));
        }
    }
    // Counts below the true ones: what follows is read as something else.
    for count in [0, 1] {
        bodies.push(wire.with_uint(Item::ReportCount, 0, count));
    }
    bodies.push(encoded(&[1; 9]).bytes);
    bodies.push(encoded(&[0]).bytes);
    bodies.push(encoded(&[1, 0]).bytes);
    bodies.push(encoded(&[17]).bytes);
    bodies.push(encoded(&[1, 17]).bytes);
}

fn add_cuts(bodies: &mut Vec<Vec<u8>>) {
    let one = encoded(&[1]).bytes;
    bodies.extend((0..one.len()).map(|length| one[..length].to_vec()));
    let larger = encoded(&[2, 1]);
    let quarters = (0..larger.bytes.len()).step_by(4);
    bodies.extend(quarters.map(|length| larger.bytes[..length].to_vec()));
    for place in larger.item_offsets() {
        bodies.push(larger.bytes[..place + 1].to_vec());
    }
}

fn add_tails(bodies: &mut Vec<Vec<u8>>) {
    for error_counts in [&[][..], &[1], &[2, 3]] {
        let body = encoded(error_counts).bytes;
        for more in [&[0][..], &[0; 3], &[0; 4], &[1; 4], &[0; 36]] {
            bodies.push(extended(&body, more));
        }
    }
    let longest = encoded(&[16; 8]).bytes;
    bodies.push(extended(&longest, &[0]));
}

/// The first fault met decides, also between reports.
fn add_two_faults(bodies: &mut Vec<Vec<u8>>) {
    let wire = encoded(&[1, 1]);
    let faults: [(Item, u32); 4] =
        [(Item::ErrorCount, 0), (Item::ErrorCount, 17), (Item::Status, 0), (Item::Operation, 6)];
    for (item, value) in faults {
        for which in 0..2 {
            let corrupted = wire.holding(wire.with_uint(item, which, value));
            bodies.push(corrupted.with_uhyper(Item::Length, 0, 0));
            bodies.push(corrupted.with_uhyper(Item::Length, 1, 0));
            bodies.push(corrupted.with_uint(Item::StatisticsCount, 0, 9));
            bodies.push(corrupted.with_uint(Item::ReportCount, 0, 9));
            bodies.push(extended(&corrupted.bytes, &[0]));
        }
    }
    let no_range = wire.with_uhyper(Item::Length, 0, 0);
    let no_status = wire.with_uint(Item::Status, 0, 0);
    for cut in [19, 20, 21, 35, 36] {
        bodies.push(no_range[..cut].to_vec());
    }
    for cut in [60, 61, 63, 64, 65] {
        bodies.push(no_status[..cut].to_vec());
    }
}

fn add_damage(bodies: &mut Vec<Vec<u8>>) {
    let mut random = Random::new(68);
    let body = encoded(&[1, 2]).bytes;
    for _ in 0..80 {
        bodies.push(random.one_byte_changed(&body));
    }
}
