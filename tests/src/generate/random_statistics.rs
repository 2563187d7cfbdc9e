//! Random cases of I/O statistics: each is aimed at one item or one fault, so
//! that a few thousand of them meet every fault often.

use super::statistic_faults::{
    any_fault, bad_range, items_of_record, padded, with_bad_padding, Fault, LENGTHS, OPAQUES, TIMES,
};
use super::statistics_read::alone;
use super::statistics_written::{return_of, size_of};
use independent::cases::{kind, CaseFileWriter};
use independent::report::DeviceError;
use independent::samples::bodies::{encode_reports, ReportPlan};
use independent::samples::random::Random;
use independent::samples::statistics::{encode_layout_return, StatisticPlan};
use independent::samples::wire::{extended, Item};

/// One case of statistics, read or written.
pub fn add_statistics_case(cases: &mut CaseFileWriter, random: &mut Random) {
    match random.below(40) {
        0..=12 => cases.record(kind::REPORT_READ, &cut_body(random)),
        13..=23 => cases.record(kind::REPORT_READ, &faulty_body(random)),
        24 => cases.record(kind::REPORT_READ, &body_of_another_count(random)),
        25 | 26 => cases.record(kind::REPORT_READ, &good_body(random)),
        27..=29 => add_written(cases, random),
        30 | 31 => add_written_counts(cases, random),
        _ => add_faulty_written(cases, random),
    }
}

/// A record of small size, or any.
fn record(random: &mut Random) -> StatisticPlan {
    if random.once_in(2) {
        StatisticPlan::random(random)
    } else {
        padded(random)
    }
}

fn records(random: &mut Random) -> Vec<StatisticPlan> {
    let count = random.pick(&[1, 1, 2, 3, 8]);
    (0..count).map(|_| record(random)).collect()
}

/// Reports that are accepted: none, one or two.
fn good_reports(random: &mut Random) -> Vec<ReportPlan> {
    (0..random.pick(&[0, 0, 0, 1, 2])).map(|_| ReportPlan::with_errors(random.next_u64() as u8, 1)).collect()
}

/// A body that ends in the statistics count or in an item of a record.
fn cut_body(random: &mut Random) -> Vec<u8> {
    if random.once_in(30) {
        let body = encode_reports(&good_reports(random), 0).bytes;
        return body[..body.len() - random.between(1, 4)].to_vec();
    }
    let plans: Vec<_> = (0..random.pick(&[1, 1, 1, 2])).map(|_| record(random)).collect();
    let wire = encode_layout_return(&good_reports(random), &plans);
    let (start, end) = random.pick(&items_of_record(&wire, plans.len() - 1));
    wire.bytes[..random.between(start, end - 1)].to_vec()
}

/// A bad padding, bytes behind the body, a fault in a report and one behind it,
/// or faults in the records alone.
fn faulty_body(random: &mut Random) -> Vec<u8> {
    let plans = faulty_records(random);
    match random.below(8) {
        0 => {
            let wire = alone(&[padded(random), padded(random)]);
            with_bad_padding(&wire, random.below(2), random.pick(&OPAQUES).0, random)
        }
        1 => extended(&alone(&[padded(random)]).bytes, &vec![0; random.between(1, 9)]),
        2 => {
            let wire = encode_layout_return(&[ReportPlan::with_errors(1, 1)], &plans);
            let (item, value) = random.pick(&[(Item::Status, 0), (Item::Operation, 26), (Item::ErrorCount, 17)]);
            wire.with_uint(item, 0, value)
        }
        _ => encode_layout_return(&good_reports(random), &plans).bytes,
    }
}

/// Records in which one, or an earlier and a later one, is at fault.
fn faulty_records(random: &mut Random) -> Vec<StatisticPlan> {
    let mut plans = vec![padded(random)];
    let fault = a_fault(random);
    fault.inject(&mut plans[0], random);
    match random.below(4) {
        0 => later_fault(fault, random).inject(&mut plans[0], random),
        1 => {
            let mut later = padded(random);
            let second = if random.once_in(2) { random.pick(&LENGTHS) } else { any_fault(random) };
            second.inject(&mut later, random);
            plans.push(later);
        }
        2 => plans.insert(0, record(random)),
        _ => {}
    }
    plans
}

/// The two parts of five times, two ends of three lengths, and two others.
fn a_fault(random: &mut Random) -> Fault {
    match random.below(20) {
        0 | 1 => Fault::Range,
        2 | 3 => Fault::Local,
        4..=9 => random.pick(&LENGTHS),
        _ => random.pick(&TIMES),
    }
}

/// A fault that the same record shows after this one.
fn later_fault(fault: Fault, random: &mut Random) -> Fault {
    match fault {
        Fault::Range => random.pick(&LENGTHS),
        Fault::Empty(_) | Fault::TooLong(_) => random.pick(&TIMES),
        _ => Fault::Local,
    }
}

fn good_body(random: &mut Random) -> Vec<u8> {
    encode_layout_return(&good_reports(random), &records(random)).bytes
}

/// Too many records, or not as many as the count says.
fn body_of_another_count(random: &mut Random) -> Vec<u8> {
    let wire = alone(&[padded(random)]);
    let count = random.pick(&[0, 2, 8, 9, 9, 10, 256, 1 << 31, u32::MAX]);
    wire.with_uint(Item::StatisticsCount, 0, count)
}

/// A good case with an output around its size.
fn add_written(cases: &mut CaseFileWriter, random: &mut Random) {
    let (plans, records) = (good_reports(random), records(random));
    let size = size_of(&plans, &records);
    let (shorter, longer) = (random.below(size), size + random.between(1, 20));
    let length = random.pick(&[size, size, longer, size - 1, shorter]);
    cases.return_write(&return_of(&plans, &records, length, random));
}

/// Faults in the numbers of reports, errors and records.
fn add_written_counts(cases: &mut CaseFileWriter, random: &mut Random) {
    let plans = [ReportPlan::with_errors(1, 1), ReportPlan::with_errors(2, 2)];
    let mut case = return_of(&plans, &[padded(random)], 68, random);
    let many = random.pick(&[9, 10, 256, 1 << 31, u32::MAX]);
    if random.once_in(2) {
        case.reports.heads[0].length = 0;
    }
    match random.below(4) {
        0 | 1 => case.statistics_count = many,
        2 => case.reports.report_count = many,
        _ => {
            case.reports.errors.pop();
        }
    }
    cases.return_write(&case);
}

/// One fault of a record or two, or a fault of a report in front of them.
fn add_faulty_written(cases: &mut CaseFileWriter, random: &mut Random) {
    let mut plans = good_reports(random);
    let mut records = faulty_records(random);
    if random.once_in(6) {
        plans.push(ReportPlan::with_errors(3, 1));
        faulty_report(plans.last_mut().expect("a report"), random);
        records.truncate(random.below(2));
    }
    let size = size_of(&plans, &records);
    let length = if random.once_in(4) { size } else { random.below(20) };
    cases.return_write(&return_of(&plans, &records, length, random));
}

fn faulty_report(plan: &mut ReportPlan, random: &mut Random) {
    match random.below(3) {
        0 => (plan.offset, plan.length) = bad_range(random),
        1 => plan.errors.clear(),
        _ => plan.errors[0] = DeviceError { status: 0, ..plan.errors[0] },
    }
}
