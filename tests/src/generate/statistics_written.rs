//! Cases of reports and I/O statistics to be written.

use super::layout4s::EDGES;
use super::reports_read::reports;
use super::reports_written::case_of;
use super::statistic_faults::{any_fault, padded, with_faults, Fault, LENGTHS, OPAQUES, TIMES};
use super::statistics_read::{at_the_limits, smallest};
use independent::cases::{CaseFileWriter, ReturnWrite};
use independent::samples::bodies::{good_error, ReportPlan};
use independent::samples::random::Random;
use independent::samples::statistics::{encode_layout_return, StatisticPlan};
use independent::samples::wire::Opaque;
use independent::statistics::Statistic;

pub fn add(cases: &mut CaseFileWriter) {
    for case in all_cases() {
        cases.return_write(&case);
    }
}

fn all_cases() -> Vec<ReturnWrite> {
    let mut cases = Vec::new();
    let mut random = Random::new(1_378);
    add_shapes(&mut cases, &mut random);
    add_lengths(&mut cases, &mut random);
    add_output_lengths(&mut cases, &mut random);
    add_ranges(&mut cases, &mut random);
    add_bad_lengths(&mut cases, &mut random);
    add_bad_times(&mut cases, &mut random);
    add_bad_booleans(&mut cases, &mut random);
    add_too_many(&mut cases, &mut random);
    add_list_lengths(&mut cases, &mut random);
    add_bad_reports(&mut cases, &mut random);
    add_orders(&mut cases, &mut random);
    cases
}

/// How many bytes the body has.
pub fn size_of(plans: &[ReportPlan], records: &[StatisticPlan]) -> usize {
    encode_layout_return(plans, records).bytes.len()
}

/// A case of these reports and records, at most 8 of each, with random bytes in
/// all spare places.
pub fn return_of(
    plans: &[ReportPlan],
    records: &[StatisticPlan],
    output_length: usize,
    random: &mut Random,
) -> ReturnWrite {
    let mut case = ReturnWrite {
        reports: case_of(plans, output_length),
        statistics_count: records.len() as u32,
        ..ReturnWrite::default()
    };
    for (statistic, plan) in case.statistics.iter_mut().zip(records) {
        *statistic = plan.record(0);
        fill_spare_places(statistic, random);
    }
    case
}

fn fill_spare_places(statistic: &mut Statistic, random: &mut Random) {
    let Statistic { netid, address, filehandle, .. } = statistic;
    let fields = [
        (&mut netid.bytes[..], netid.length),
        (&mut address.bytes, address.length),
        (&mut filehandle.bytes, filehandle.length),
    ];
    for (bytes, length) in fields {
        for byte in bytes.iter_mut().skip(length as usize) {
            *byte = random.next_u64() as u8;
        }
    }
}

/// A refused case of records alone; its output is short, or as long as one good
/// record would need.
fn refused(records: &[StatisticPlan], random: &mut Random) -> ReturnWrite {
    let output_length = if random.once_in(8) { 256 } else { random.below(9) };
    return_of(&[], records, output_length, random)
}

fn add_shapes(cases: &mut Vec<ReturnWrite>, random: &mut Random) {
    for (error_counts, count) in [(&[][..], 0), (&[1], 0), (&[], 1), (&[1, 2], 2), (&[], 8)] {
        let (plans, records) = (reports(error_counts), smallest(count));
        cases.push(return_of(&plans, &records, size_of(&plans, &records), random));
    }
    cases.push(return_of(&reports(&[16; 8]), &at_the_limits(8), 6_856, random));
    cases.push(return_of(&[], &at_the_limits(1), 8_192, random));
    cases.push(return_of(&[], &at_the_limits(1), 445, random));
}

/// Every netid length and every padding; `local` is 0 and 1.
fn add_lengths(cases: &mut Vec<ReturnWrite>, random: &mut Random) {
    for netid in 2..=7 {
        let plan = StatisticPlan::sized(60 + netid as u8, netid, netid + 8, netid + 16);
        cases.push(return_of(&[], &[plan], 300, random));
    }
}

/// 26: exactly the size, around it, and far from it.
fn add_output_lengths(cases: &mut Vec<ReturnWrite>, random: &mut Random) {
    for number in 0..10 {
        let plan = padded(random);
        let records = [StatisticPlan { length: u64::MAX - plan.offset, ..plan }];
        let plans = reports(&[1; 2][..number % 3]);
        let size = size_of(&plans, &records);
        let far = random.below(size - 1);
        for length in [size - 1, random.pick(&[size - 4, size - 2, 8, 0, far])] {
            cases.push(return_of(&plans, &records, length, random));
        }
        let more = random.between(1, 9);
        let length = if number % 2 == 0 { size } else { size + more };
        cases.push(return_of(&plans, &records, length, random));
    }
}

fn add_ranges(cases: &mut Vec<ReturnWrite>, random: &mut Random) {
    for (number, offset) in EDGES.into_iter().enumerate() {
        let one_too_long = (u64::MAX - offset).wrapping_add(1);
        let length = if number % 3 == 0 { 0 } else { one_too_long };
        let plan = StatisticPlan { offset, length, ..padded(random) };
        cases.push(refused(&[plan], random));
    }
    let plan = StatisticPlan { offset: u64::MAX, length: u64::MAX, ..padded(random) };
    cases.push(return_of(&[], &[plan], 256, random));
}

/// 8, also with lengths of which no slice or sum may be made.
fn add_bad_lengths(cases: &mut Vec<ReturnWrite>, random: &mut Random) {
    for fault in LENGTHS {
        let count = if matches!(fault, Fault::Empty(_)) { 9 } else { 5 };
        for _ in 0..count {
            cases.push(refused(&[with_faults(&[fault], random)], random));
        }
    }
    for (opaque, _) in OPAQUES {
        for length in [1 << 8, 1 << 31, u32::MAX - 2, u32::MAX] {
            let mut case = refused(&[padded(random)], random);
            let statistic = &mut case.statistics[0];
            match opaque {
                Opaque::Netid => statistic.netid.length = length,
                Opaque::Address => statistic.address.length = length,
                _ => statistic.filehandle.length = length,
            }
            cases.push(case);
        }
    }
}

fn add_bad_times(cases: &mut Vec<ReturnWrite>, random: &mut Random) {
    for fault in TIMES {
        for _ in 0..8 {
            cases.push(refused(&[with_faults(&[fault], random)], random));
        }
    }
}

fn add_bad_booleans(cases: &mut Vec<ReturnWrite>, random: &mut Random) {
    for _ in 0..12 {
        cases.push(refused(&[with_faults(&[Fault::Local], random)], random));
    }
}

/// Too many statistics come before the reports, and too many reports before
/// everything.
fn add_too_many(cases: &mut Vec<ReturnWrite>, random: &mut Random) {
    for count in [9, 9, 10, 16, 255, 256, 1 << 16, 1 << 31, u32::MAX - 1, u32::MAX] {
        let mut plans = reports(&[1]);
        plans[0].length = 0;
        let mut case = return_of(&plans, &smallest(8), 4, random);
        case.statistics_count = count;
        cases.push(case);
    }
    for count in [9, 9, 10, 16, 255, 256, 1 << 16, 1 << 31, u32::MAX - 1, u32::MAX] {
        let mut case = return_of(&reports(&[1; 8]), &[], 4, random);
        case.reports.report_count = count;
        case.reports.heads[0].length = 0;
        cases.push(case);
    }
}

/// 8: a list that is longer or shorter than the counts say, in front of wrong
/// reports and records.
fn add_list_lengths(cases: &mut Vec<ReturnWrite>, random: &mut Random) {
    for number in 0..10 {
        let mut plans = reports(&[1, 2, 1][..1 + number % 3]);
        plans[0].length = 0;
        let records = if number < 4 { vec![with_faults(&[TIMES[number]], random)] } else { Vec::new() };
        let mut case = return_of(&plans, &records, 6, random);
        if number % 2 == 0 {
            case.reports.errors.push(good_error(1, number));
        } else {
            case.reports.errors.pop();
        }
        cases.push(case);
    }
}

/// 5, 8 and 27 of a report, also in front of records that are wrong.
fn add_bad_reports(cases: &mut Vec<ReturnWrite>, random: &mut Random) {
    for number in 0..12 {
        for fault in 0..3 {
            let mut plans = reports(&[1, 1]);
            let plan = &mut plans[number % 2];
            match fault {
                0 => plan.length = 0,
                1 => plan.errors = (0..if number == 1 { 17 } else { 0 }).map(|place| good_error(1, place)).collect(),
                _ => plan.errors[0].status = 0,
            }
            let any = any_fault(random);
            let records = if number < 4 { vec![with_faults(&[any], random)] } else { Vec::new() };
            cases.push(return_of(&plans, &records, 5, random));
        }
    }
}

/// The first fault decides: in a record and between records.
fn add_orders(cases: &mut Vec<ReturnWrite>, random: &mut Random) {
    for number in 0..10 {
        let (length, time) = (LENGTHS[number % 6], TIMES[number]);
        cases.push(refused(&[with_faults(&[length, time], random)], random));
        cases.push(refused(&[with_faults(&[time, Fault::Local], random)], random));
        let (first, later) = (with_faults(&[time], random), with_faults(&[length], random));
        cases.push(refused(&[first, later], random));
    }
}
