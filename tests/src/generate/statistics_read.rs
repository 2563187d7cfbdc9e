//! Cases of bodies with I/O statistics to be read.

use super::layout4s::EDGES;
use super::reports_read::reports;
use super::statistic_faults::{
    any_fault, items_of_record, padded, with_bad_padding, with_faults, Fault, LENGTHS, OPAQUES, TIMES,
};
use independent::cases::{kind, CaseFileWriter};
use independent::samples::random::Random;
use independent::samples::statistics::{encode_layout_return, StatisticPlan, LARGEST_TIME};
use independent::samples::wire::{extended, Item, Wire};

pub fn add(cases: &mut CaseFileWriter) {
    for body in all_bodies() {
        cases.record(kind::REPORT_READ, &body);
    }
}

fn all_bodies() -> Vec<Vec<u8>> {
    let mut bodies = Vec::new();
    let mut random = Random::new(1_368);
    add_shapes(&mut bodies);
    add_lengths(&mut bodies);
    add_ranges(&mut bodies);
    add_times(&mut bodies);
    add_bad_lengths(&mut bodies, &mut random);
    add_bad_times(&mut bodies, &mut random);
    add_bad_padding(&mut bodies, &mut random);
    add_bad_booleans(&mut bodies, &mut random);
    add_counts(&mut bodies);
    add_cuts(&mut bodies, &mut random);
    add_tails(&mut bodies);
    add_orders(&mut bodies, &mut random);
    add_damage(&mut bodies, &mut random);
    bodies
}

/// A body of these records alone.
pub fn alone(records: &[StatisticPlan]) -> Wire {
    encode_layout_return(&[], records)
}

/// Records of the fewest bytes.
pub fn smallest(count: u8) -> Vec<StatisticPlan> {
    (0..count).map(StatisticPlan::smallest).collect()
}

fn add_shapes(bodies: &mut Vec<Vec<u8>>) {
    for count in [2, 8] {
        bodies.push(alone(&smallest(count)).bytes);
    }
    for (error_counts, count) in [(&[1][..], 1), (&[1, 2], 2), (&[1; 8], 1)] {
        bodies.push(encode_layout_return(&reports(error_counts), &smallest(count)).bytes);
    }
    bodies.push(encode_layout_return(&reports(&[16; 8]), &at_the_limits(8)).bytes);
    bodies.push(alone(&at_the_limits(2)).bytes);
}

/// Records of which every length and time is the largest, and whose ranges
/// reach through the last byte.
pub fn at_the_limits(count: u8) -> Vec<StatisticPlan> {
    let plan = |number| StatisticPlan { length: u64::MAX, times: [LARGEST_TIME; 5], ..StatisticPlan::largest(number) };
    (0..count).map(plan).collect()
}

/// Every netid length and every padding, in ranges that end one byte before the
/// last one.
fn add_lengths(bodies: &mut Vec<Vec<u8>>) {
    let lengths = [(2, 2, 2), (3, 3, 3), (4, 4, 4), (5, 5, 5), (6, 6, 6), (7, 7, 7), (8, 61, 125), (1, 62, 126)];
    for (number, (netid, address, filehandle)) in lengths.into_iter().chain([(1, 63, 127), (3, 13, 20)]).enumerate() {
        let plan = StatisticPlan::sized(30 + number as u8, netid, address, filehandle);
        bodies.push(alone(&[StatisticPlan { length: u64::MAX - plan.offset, ..plan }]).bytes);
    }
}

fn add_ranges(bodies: &mut Vec<Vec<u8>>) {
    for (number, offset) in EDGES.into_iter().enumerate() {
        let one_too_long = (u64::MAX - offset).wrapping_add(1);
        let length = if number % 3 == 0 { 0 } else { one_too_long };
        bodies.push(alone(&[StatisticPlan { offset, length, ..StatisticPlan::smallest(7) }]).bytes);
    }
    for offset in [0, 1 << 63, u64::MAX] {
        bodies.push(alone(&[StatisticPlan { offset, length: u64::MAX, ..StatisticPlan::smallest(7) }]).bytes);
    }
    let no_range = alone(&[StatisticPlan { length: 0, ..StatisticPlan::smallest(7) }]).bytes;
    for cut in [23, 24, 25] {
        bodies.push(no_range[..cut].to_vec());
    }
}

/// The largest seconds without nanoseconds, and the other way round.
fn add_times(bodies: &mut Vec<Vec<u8>>) {
    for time in [(LARGEST_TIME.0, 0), (0, LARGEST_TIME.1), (0, 0)] {
        bodies.push(alone(&[StatisticPlan { times: [time; 5], ..StatisticPlan::smallest(8) }]).bytes);
    }
}

/// 8: with the content that the length says, and as a number with nothing
/// after it.
fn add_bad_lengths(bodies: &mut Vec<Vec<u8>>, random: &mut Random) {
    for fault in LENGTHS {
        for _ in 0..4 {
            let mut plan = padded(random);
            fault.inject(&mut plan, random);
            bodies.push(alone(&[plan]).bytes);
        }
    }
    for (opaque, limit) in OPAQUES {
        let item = Item::LengthOf(opaque);
        let wire = alone(&[padded(random)]);
        let end = wire.offsets(item)[0] + 4;
        for length in [0, limit as u32 + 1, 1 << 8, 1 << 24, 1 << 31, u32::MAX] {
            bodies.push(wire.with_uint(item, 0, length)[..end].to_vec());
        }
        for cut in 0..4 {
            bodies.push(wire.with_uint(item, 0, 0)[..end + cut].to_vec());
        }
    }
}

/// 28, and 1 where the time is not there whole.
fn add_bad_times(bodies: &mut Vec<Vec<u8>>, random: &mut Random) {
    for fault in TIMES {
        for number in 0..9 {
            let mut plan = padded(random);
            fault.inject(&mut plan, random);
            let body = alone(&[plan]);
            let (Fault::Seconds(place) | Fault::Nanoseconds(place)) = fault else { continue };
            let start = body.offsets(Item::Seconds)[place];
            match number {
                0 => bodies.push(body.bytes[..start + 11].to_vec()),
                1 => bodies.push(body.bytes[..start + 12].to_vec()),
                _ => bodies.push(body.bytes),
            }
        }
    }
}

fn add_bad_padding(bodies: &mut Vec<Vec<u8>>, random: &mut Random) {
    for (opaque, _) in OPAQUES {
        for _ in 0..9 {
            let wire = alone(&[padded(random)]);
            bodies.push(with_bad_padding(&wire, 0, opaque, random));
        }
        let tcp = StatisticPlan { netid: b"tcp".to_vec(), ..padded(random) };
        bodies.push(with_bad_padding(&alone(&[StatisticPlan::smallest(1), tcp]), 1, opaque, random));
    }
}

fn add_bad_booleans(bodies: &mut Vec<Vec<u8>>, random: &mut Random) {
    for _ in 0..8 {
        let mut plan = padded(random);
        Fault::Local.inject(&mut plan, random);
        bodies.push(alone(&[plan]).bytes);
    }
}

/// Counts above 8 with and without records, and counts that are not those of
/// the records.
fn add_counts(bodies: &mut Vec<Vec<u8>>) {
    bodies.push(alone(&smallest(9)).bytes);
    let wire = alone(&smallest(1));
    for count in [0, 2, 8, 9, 1 << 24, u32::MAX] {
        bodies.push(wire.with_uint(Item::StatisticsCount, 0, count));
    }
    for count in [9, 10, 16, 255, 256, 1 << 16, 1 << 31, u32::MAX] {
        bodies.push(wire.with_uint(Item::StatisticsCount, 0, count)[..8].to_vec());
    }
    // Eight are not too many, also where the first of them is not there.
    for length in 8..16 {
        bodies.push(wire.with_uint(Item::StatisticsCount, 0, 8)[..length].to_vec());
    }
}

/// Every byte of the smallest record, and each item at least ten times.
fn add_cuts(bodies: &mut Vec<Vec<u8>>, random: &mut Random) {
    let wire = alone(&smallest(1));
    let first = wire.offsets(Item::StatisticsCount)[0];
    bodies.extend((first..wire.bytes.len()).map(|length| wire.bytes[..length].to_vec()));
    for (number, (start, end)) in items_of_record(&wire, 0).into_iter().enumerate() {
        for _ in end - start..10 {
            let other = alone(&[padded(random)]);
            let (start, end) = items_of_record(&other, 0)[number];
            bodies.push(other.bytes[..random.between(start, end - 1)].to_vec());
        }
    }
    for place in 0..6 {
        let behind_a_report = encode_layout_return(&reports(&[1]), &smallest(1));
        let start = behind_a_report.offsets(Item::StatisticsCount)[0];
        bodies.push(behind_a_report.bytes[..start + place % 4].to_vec());
    }
    let two = alone(&smallest(2));
    for (start, end) in items_of_record(&two, 1).into_iter().step_by(9) {
        bodies.push(two.bytes[..(start + end) / 2].to_vec());
    }
}

fn add_tails(bodies: &mut Vec<Vec<u8>>) {
    let body = alone(&smallest(1)).bytes;
    for more in [&[0][..], &[1], &[0; 3], &[0; 4], &[1; 4]] {
        bodies.push(extended(&body, more));
    }
    bodies.push(extended(&alone(&smallest(2)).bytes, &[0]));
}

/// The first fault met decides: in a record, between records, and between a
/// report and a record.
fn add_orders(bodies: &mut Vec<Vec<u8>>, random: &mut Random) {
    for number in 0..10 {
        let (length, time) = (LENGTHS[number % 6], TIMES[number]);
        bodies.push(alone(&[with_faults(&[length, time], random)]).bytes);
        bodies.push(alone(&[with_faults(&[time, Fault::Local], random)]).bytes);
        bodies.push(alone(&[with_faults(&[time], random), with_faults(&[length], random)]).bytes);
        let fault = any_fault(random);
        let behind = encode_layout_return(&reports(&[1]), &[with_faults(&[fault], random)]);
        bodies.push(match number % 3 {
            0 => behind.with_uint(Item::Status, 0, 0),
            1 => behind.with_uint(Item::Operation, 0, 26),
            _ => behind.with_uhyper(Item::Length, 0, 0),
        });
        let padded = alone(&[with_faults(&[time], random)]);
        bodies.push(with_bad_padding(&padded, 0, OPAQUES[number % 3].0, random));
        bodies.push(extended(&alone(&[with_faults(&[fault], random)]).bytes, &[0]));
    }
}

fn add_damage(bodies: &mut Vec<Vec<u8>>, random: &mut Random) {
    let body = alone(&[StatisticPlan { netid: b"tcp".to_vec(), ..StatisticPlan::smallest(9) }]).bytes;
    for _ in 0..10 {
        bodies.push(random.one_byte_changed(&body));
    }
}
