//! Cases of error reports to be written, without statistics; those with I/O
//! statistics are in [`super::statistics_written`].

use super::layout4s::EDGES;
use super::reports_read::reports;
use independent::cases::{CaseFileWriter, ReportWrite};
use independent::report::{DeviceError, ReportHead};
use independent::samples::bodies::{good_error, ReportPlan};

pub fn add(cases: &mut CaseFileWriter) {
    for case in all_cases() {
        cases.report_write(&case);
    }
}

fn all_cases() -> Vec<ReportWrite> {
    let mut cases = Vec::new();
    add_shapes(&mut cases);
    add_output_lengths(&mut cases);
    add_ranges(&mut cases);
    add_errors(&mut cases);
    add_too_many_reports(&mut cases);
    add_list_lengths(&mut cases);
    add_wrapping_counts(&mut cases);
    add_error_counts(&mut cases);
    add_pairs_of_faults(&mut cases);
    cases
}

/// "one report with one error has 68; with no report it is eight zero bytes"
fn size_of(error_counts: &[usize]) -> usize {
    8 + error_counts.iter().map(|count| 36 + 24 * count).sum::<usize>()
}

/// A case of these reports, of which there are at most 8.
pub fn case_of(plans: &[ReportPlan], output_length: usize) -> ReportWrite {
    let mut case = ReportWrite {
        output_length,
        report_count: plans.len() as u32,
        errors: plans.iter().flat_map(|plan| plan.errors.clone()).collect(),
        ..ReportWrite::default()
    };
    for (head, plan) in case.heads.iter_mut().zip(plans) {
        *head = ReportHead {
            offset: plan.offset,
            length: plan.length,
            stateid: plan.stateid,
            error_count: plan.errors.len() as u32,
        };
    }
    case
}

fn add_shapes(cases: &mut Vec<ReportWrite>) {
    for count in 0..=8 {
        let error_counts = &[1, 2, 1, 3, 1, 2, 1, 4][..count];
        cases.push(case_of(&reports(error_counts), size_of(error_counts)));
    }
    for errors in 1..=16 {
        cases.push(case_of(&reports(&[errors]), size_of(&[errors]) + 1));
    }
    cases.push(case_of(&reports(&[16; 8]), 3_368));
    cases.push(case_of(&reports(&[16; 8]), 4_096));
    cases.push(case_of(&reports(&[16; 8]), 3_367));
}

/// 26: exactly the size, around it, and far from it.
fn add_output_lengths(cases: &mut Vec<ReportWrite>) {
    for error_counts in [&[][..], &[1], &[1, 1], &[3, 2]] {
        let size = size_of(error_counts);
        let plans = reports(error_counts);
        for length in [0, 1, 4, 7, size / 2, size - 4, size - 1, size, size + 1, size + 7] {
            cases.push(case_of(&plans, length));
        }
    }
    cases.push(case_of(&[], 4_096));
}

fn add_ranges(cases: &mut Vec<ReportWrite>) {
    for offset in EDGES {
        for length in EDGES {
            let report = ReportPlan { offset, length, ..ReportPlan::with_errors(1, 1) };
            cases.push(case_of(&[report], 68));
        }
    }
}

/// 27, first and later in the list.
fn add_errors(cases: &mut Vec<ReportWrite>) {
    let mut push = |status, operation| {
        let errors = vec![DeviceError { status, operation, ..good_error(1, 0) }];
        cases.push(case_of(&[ReportPlan { errors, ..ReportPlan::with_errors(1, 0) }], 70));
    };
    for operation in (0..=40).chain([261, 10_044, 5 << 24, 38 << 8, u32::MAX]) {
        push(5, operation);
    }
    for status in [0, 1, 13, 10_001, 1 << 31, u32::MAX] {
        push(status, 38);
        push(status, 3);
    }
    for place in 0..5 {
        let mut case = case_of(&reports(&[2, 3]), 10);
        case.errors[place].status = 0;
        cases.push(case.clone());
        case.errors[place] = DeviceError { operation: 39, ..good_error(1, place) };
        cases.push(case);
    }
}

/// Too many reports come before anything else that is wrong.
fn add_too_many_reports(cases: &mut Vec<ReportWrite>) {
    for report_count in [9, 10, 16, 255, 256, 1 << 31, u32::MAX] {
        for error_count in [0, 1] {
            let mut case = case_of(&reports(&[error_count; 8]), 12);
            case.report_count = report_count;
            cases.push(case.clone());
            case.heads[0].length = 0;
            case.errors.clear();
            cases.push(case);
        }
    }
}

/// "the counts together must be the list's length", and this comes before the
/// reports themselves.
fn add_list_lengths(cases: &mut Vec<ReportWrite>) {
    for error_counts in [&[][..], &[1], &[2, 3], &[16]] {
        let case = case_of(&reports(error_counts), 20);
        let mut longer = case.clone();
        longer.errors.push(good_error(1, 1));
        cases.push(longer.clone());
        longer.errors[0].status = 0;
        longer.heads[0].length = 0;
        cases.push(longer);
        let mut shorter = case;
        if shorter.errors.pop().is_some() {
            cases.push(shorter.clone());
            shorter.heads[0].length = 0;
            cases.push(shorter);
        }
    }
    // The eighth report's errors are in the list, the report is not.
    let mut full = case_of(&reports(&[2; 8]), 20);
    full.report_count = 7;
    cases.push(full);
}

/// Counts whose sum is the list's length only if it wraps at 32 bits. The
/// faults of the reports after that test must not be met.
fn add_wrapping_counts(cases: &mut Vec<ReportWrite>) {
    let half = 1 << 31;
    let counts: [(&[u32], usize); 8] = [
        (&[u32::MAX, 1], 0),
        (&[u32::MAX, 2], 1),
        (&[1, u32::MAX], 0),
        (&[half, half], 0),
        (&[half, half, 3], 3),
        (&[1, half, half], 1),
        (&[u32::MAX; 8], 0),
        (&[1 << 29; 8], 0),
    ];
    for (error_counts, list_length) in counts {
        for length in [4_096, 0] {
            let mut case = case_of(&reports(&vec![0; error_counts.len()]), 8);
            for (head, &error_count) in case.heads.iter_mut().zip(error_counts) {
                head.error_count = error_count;
                head.length = length;
            }
            case.errors = (0..list_length).map(|place| good_error(1, place)).collect();
            cases.push(case);
        }
    }
}

/// Error counts 0 and above 16 whose sum is right.
fn add_error_counts(cases: &mut Vec<ReportWrite>) {
    let lists: [&[usize]; 11] = [
        &[0],
        &[17],
        &[0, 1],
        &[1, 0],
        &[17, 1],
        &[1, 17],
        &[16, 16, 0],
        &[16, 17],
        &[33],
        &[1, 1, 1, 1, 1, 1, 1, 0],
        &[16, 16, 15, 17],
    ];
    for error_counts in lists {
        cases.push(case_of(&reports(error_counts), 16));
    }
    // A wrong error in a report of too many is not met.
    let mut case = case_of(&reports(&[17]), 16);
    case.errors[0].status = 0;
    cases.push(case);
}

/// The faults that a single report can have.
#[derive(Clone, Copy)]
enum Fault {
    Range,
    NoErrors,
    Status,
    Operation,
}

fn inject(plan: &mut ReportPlan, fault: Fault) {
    match fault {
        Fault::Range => plan.length = 0,
        Fault::NoErrors => plan.errors.clear(),
        Fault::Status => plan.errors.iter_mut().for_each(|error| error.status = 0),
        Fault::Operation => plan.errors.iter_mut().for_each(|error| error.operation = 26),
    }
}

/// Each pair of faults in each pair of three reports, with an output that is
/// too short as well or long enough.
fn add_pairs_of_faults(cases: &mut Vec<ReportWrite>) {
    let faults = [Fault::Range, Fault::NoErrors, Fault::Status, Fault::Operation];
    for (first_number, first) in faults.into_iter().enumerate() {
        for (second_number, second) in faults.into_iter().enumerate() {
            for (place, other) in [(0, 0), (0, 1), (0, 2), (1, 0), (1, 2), (2, 0), (2, 1)] {
                let mut plans = reports(&[1, 1, 2]);
                inject(&mut plans[place], first);
                inject(&mut plans[other], second);
                let long_enough = (first_number + second_number + place) % 4 == 0;
                cases.push(case_of(&plans, if long_enough { 208 } else { 5 }));
            }
        }
    }
}
