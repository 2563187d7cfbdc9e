//! Bodies with reports and statistics.

use super::*;
use crate::samples::random::Random;
use crate::samples::statistics::{encode_layout_return, StatisticPlan};

fn smallest(count: u8) -> Vec<StatisticPlan> {
    (0..count).map(StatisticPlan::smallest).collect()
}

/// A body of one report and these records.
fn behind_a_report(statistics: &[StatisticPlan]) -> Wire {
    encode_layout_return(&[ReportPlan::with_errors(1, 1)], statistics)
}

/// What is handed over to be written.
#[derive(Clone)]
struct Given {
    heads: Vec<ReportHead>,
    errors: Vec<DeviceError>,
    statistics_count: u32,
    statistics: Vec<Statistic>,
}

impl Given {
    /// One good report of one error, and these records.
    fn records(plans: &[StatisticPlan]) -> Self {
        Given {
            heads: vec![head(1)],
            errors: vec![good_error(1, 0)],
            statistics_count: plans.len() as u32,
            statistics: plans.iter().map(|plan| plan.record(165)).collect(),
        }
    }

    fn write(&self, output: &mut [u8]) -> Result<usize, u8> {
        let mut statistics = self.statistics.clone();
        statistics.resize(8, Statistic::default());
        let Given { heads: given, errors, statistics_count, .. } = self;
        let heads = heads(given);
        let outcome = write_layout_return(given.len() as u32, &heads, errors, *statistics_count, &statistics, output);
        outcome.map_err(Refusal::number)
    }

    /// The refusal with an output of this length, which must not be touched.
    fn refusal(&self, length: usize) -> Option<u8> {
        let mut output = vec![165; length];
        let refusal = self.write(&mut output).err();
        assert!(refusal.is_none() || output.iter().all(|&byte| byte == 165), "the output is touched");
        refusal
    }
}

#[test]
fn one_record_alone_has_256_bytes() {
    let wire = encode_layout_return(&[], &smallest(1));
    assert_eq!(wire.bytes.len(), 256);
    let expected = LayoutReturn { statistics: vec![StatisticPlan::smallest(0).record(0)], ..Default::default() };
    assert_eq!(read_layout_return(&wire.bytes), Ok(expected));
    let given = Given { heads: Vec::new(), errors: Vec::new(), ..Given::records(&smallest(1)) };
    let mut output = [165; 258];
    assert_eq!(given.write(&mut output), Ok(256));
    assert_eq!(output[..256], wire.bytes);
    assert_eq!(output[256..], [165; 2]);
}

#[test]
fn the_largest_body_has_6856_bytes() {
    let reports: Vec<_> = (0..8).map(|number| ReportPlan::with_errors(number, 16)).collect();
    let records: Vec<_> = (0..8).map(StatisticPlan::largest).collect();
    let wire = encode_layout_return(&reports, &records);
    assert_eq!(wire.bytes.len(), 6_856);
    let read = read_layout_return(&wire.bytes).expect("an accepted body");
    assert_eq!((read.heads.len(), read.errors.len(), read.statistics.len()), (8, 128, 8));
    let given = Given { heads: read.heads, errors: read.errors, statistics_count: 8, statistics: read.statistics };
    let mut output = vec![165; 6_857];
    assert_eq!(given.write(&mut output), Ok(6_856));
    assert_eq!(output[..6_856], wire.bytes);
    assert_eq!(given.refusal(6_855), Some(26));
    // The length is no test of its own.
    assert_eq!(refusal(&output), Some(2));
}

#[test]
fn eight_records_are_taken_and_nine_are_not() {
    for count in 0..=8 {
        assert_eq!(refusal(&behind_a_report(&smallest(count)).bytes), None);
        assert_eq!(Given::records(&smallest(count)).refusal(4_096), None);
    }
    assert_eq!(refusal(&behind_a_report(&smallest(9)).bytes), Some(8));
    let wire = behind_a_report(&smallest(1));
    let count_end = wire.offsets(Item::StatisticsCount)[0] + 4;
    for count in [9, 256, 1 << 24, 1 << 31, u32::MAX] {
        assert_eq!(refusal(&wire.with_uint(Item::StatisticsCount, 0, count)[..count_end]), Some(8));
        let given = Given { statistics_count: count, ..Given::records(&smallest(8)) };
        assert_eq!(given.refusal(4_096), Some(8));
    }
    // Eight without a byte behind them.
    assert_eq!(refusal(&wire.with_uint(Item::StatisticsCount, 0, 8)[..count_end]), Some(1));
}

#[test]
fn a_body_that_is_cut_anywhere_runs_out() {
    let body = behind_a_report(&[StatisticPlan::sized(1, 3, 13, 20), StatisticPlan::smallest(2)]).bytes;
    for length in 0..body.len() {
        assert_eq!(refusal(&body[..length]), Some(1), "cut to {length}");
    }
    assert_eq!(refusal(&body), None);
    for more in [&[0][..], &[0; 4], &[1; 248]] {
        assert_eq!(refusal(&extended(&body, more)), Some(2));
    }
}

#[test]
fn a_count_below_the_records_leaves_bytes_over() {
    let wire = behind_a_report(&smallest(2));
    for count in [0, 1] {
        assert_eq!(refusal(&wire.with_uint(Item::StatisticsCount, 0, count)), Some(2));
    }
    assert_eq!(refusal(&wire.with_uint(Item::StatisticsCount, 0, 3)), Some(1));
}

/// A fault in an earlier record comes first, whatever its number.
#[test]
fn records_are_judged_in_order() {
    let bad_time = StatisticPlan { times: [(1 << 63, 0); 5], ..StatisticPlan::smallest(1) };
    let bad_length = StatisticPlan { netid: Vec::new(), ..StatisticPlan::smallest(2) };
    let bad_range = StatisticPlan { length: 0, ..StatisticPlan::smallest(3) };
    let bad_local = StatisticPlan { local: 2, ..StatisticPlan::smallest(4) };
    let good = StatisticPlan::smallest(5);
    let lists = [
        ([&bad_time, &bad_length], 28),
        ([&bad_length, &bad_time], 8),
        ([&bad_local, &bad_range], 7),
        ([&bad_range, &bad_local], 5),
        ([&good, &bad_local], 7),
        ([&good, &bad_time], 28),
    ];
    for (pair, number) in lists {
        let plans = pair.map(StatisticPlan::clone);
        assert_eq!(refusal(&behind_a_report(&plans).bytes), Some(number));
        assert_eq!(Given::records(&plans).refusal(0), Some(number));
    }
}

#[test]
fn a_bad_report_comes_before_any_record() {
    let bad = StatisticPlan { length: 0, local: 2, ..StatisticPlan::smallest(1) };
    let wire = behind_a_report(&[bad.clone()]);
    assert_eq!(refusal(&wire.bytes), Some(5));
    assert_eq!(refusal(&wire.with_uint(Item::Status, 0, 0)), Some(27));
    assert_eq!(refusal(&wire.with_uint(Item::ErrorCount, 0, 17)), Some(8));
    let mut given = Given::records(&[bad]);
    given.errors[0].operation = 4;
    assert_eq!(given.refusal(0), Some(27));
    given.heads[0].length = 0;
    assert_eq!(given.refusal(0), Some(5));
}

/// "too many statistics (8) come right after the list's length"
#[test]
fn too_many_statistics_come_before_the_first_report() {
    let mut given = Given { statistics_count: 9, ..Given::records(&smallest(8)) };
    given.heads[0].length = 0;
    assert_eq!(given.refusal(0), Some(8));
    given.statistics_count = 8;
    assert_eq!(given.refusal(0), Some(5));
}

/// Reading meets the reports first: there the count is behind them.
#[test]
fn in_reading_too_many_statistics_come_behind_the_reports() {
    let wire = behind_a_report(&smallest(1));
    let too_many = wire.holding(wire.with_uint(Item::StatisticsCount, 0, 9));
    assert_eq!(refusal(&too_many.bytes), Some(8));
    assert_eq!(refusal(&too_many.with_uhyper(Item::Length, 0, 0)), Some(5));
    assert_eq!(refusal(&too_many.with_uint(Item::Operation, 0, 6)), Some(27));
}

#[test]
fn a_list_of_another_length_comes_before_the_records() {
    let bad = StatisticPlan { length: 0, ..StatisticPlan::smallest(1) };
    for errors in [0, 2] {
        let given = Given { errors: vec![good_error(1, 0); errors], ..Given::records(&[bad.clone()]) };
        assert_eq!(given.refusal(0), Some(8));
    }
    assert_eq!(Given::records(&[bad]).refusal(0), Some(5));
}

#[test]
fn a_short_output_comes_last() {
    let mut given = Given::records(&smallest(2));
    let size = 68 + 2 * 248;
    assert_eq!(given.refusal(size), None);
    for length in [0, 1, 68, size - 4, size - 1] {
        assert_eq!(given.refusal(length), Some(26), "{length} bytes");
    }
    given.statistics[1].local = 2;
    assert_eq!(given.refusal(size - 1), Some(7));
    given.statistics[0].duration.nanoseconds = 1_000_000_000;
    assert_eq!(given.refusal(size - 1), Some(28));
}

#[test]
fn records_behind_the_count_are_ignored() {
    let bad = StatisticPlan { length: 0, local: 2, ..StatisticPlan::smallest(2) };
    let given = Given { statistics_count: 1, ..Given::records(&[StatisticPlan::smallest(1), bad]) };
    let mut output = vec![165; 68 + 248 + 5];
    assert_eq!(given.write(&mut output), Ok(68 + 248));
    assert_eq!(output[68 + 248..], [165; 5]);
    assert_eq!(read_layout_return(&output[..68 + 248]).map(|read| read.statistics.len()), Ok(1));
}

#[test]
fn reports_alone_are_written_as_before() {
    let given = Given::records(&[]);
    let (mut output, mut alone) = ([165; 70], [165; 70]);
    assert_eq!(given.write(&mut output), Ok(68));
    assert_eq!(write_reports(1, &heads(&given.heads), &given.errors, &mut alone), Ok(68));
    assert_eq!(output, alone);
}

#[test]
fn random_bodies_come_back_both_ways() {
    let mut random = Random::new(14);
    for _ in 0..200 {
        let reports: Vec<_> = (0..random.below(9) as u8).map(|n| ReportPlan::with_errors(n, 1 + n as usize)).collect();
        let plans: Vec<_> = (0..random.below(9)).map(|_| StatisticPlan::random(&mut random)).collect();
        let body = encode_layout_return(&reports, &plans).bytes;
        let read = read_layout_return(&body).expect("an accepted body");
        let zero_spare: Vec<_> = plans.iter().map(|plan| plan.record(0)).collect();
        assert_eq!(read.statistics, zero_spare);
        let given = Given {
            heads: read.heads,
            errors: read.errors,
            statistics_count: plans.len() as u32,
            statistics: plans.iter().map(|plan| plan.record(random.next_u64() as u8)).collect(),
        };
        let mut output = vec![165; body.len() + random.below(3)];
        assert_eq!(given.write(&mut output), Ok(body.len()));
        assert_eq!(output[..body.len()], body);
        assert!(output[body.len()..].iter().all(|&byte| byte == 165));
    }
}
