//! Which situations of I/O statistics the cases of a file meet: the first fault
//! of each case, which is what it must be refused for; pairs of faults; and
//! numbers at a limit that are accepted.

use crate::statistic_faults::{faults_both_ways, faults_of_writing, items, Fault, Found, Walk, OPAQUES};
use independent::cases::{Case, CaseFile, ReturnWrite};
use independent::refusal::Refusal;
use independent::report::{read_layout_return, write_layout_return};
use independent::samples::wire::Opaque;
use independent::statistics::Statistic;
use std::collections::BTreeMap;

/// Two faults of which the first is met.
#[derive(Clone, Copy, Debug, PartialEq, Eq, PartialOrd, Ord)]
pub enum Order {
    /// 8 and 28 in one record.
    LengthThenTime,
    /// 28 and 7 in one record.
    TimeThenLocal,
    /// 28 in a record and 8 in a later one.
    TimeThenLaterLength,
    ReportThenRecord,
    /// In writing alone: 8 and a report's 5.
    StatisticsCountThenReport,
    /// In writing alone: a record's number, and 26.
    RecordThenOutput(u8),
}

/// Numbers at a limit that are accepted.
#[derive(Clone, Copy, Debug, PartialEq, Eq, PartialOrd, Ord)]
pub enum Limit {
    /// Eight statistics are not too many; a later fault may be met.
    Eight,
    Shortest(Opaque),
    Longest(Opaque),
    Seconds(u8),
    Nanoseconds(u8),
    Local(u32),
    /// The length 2^64 - 1 behind an offset that is not 0.
    ToTheLastByte,
    /// Offset and length are 2^64 - 1 together.
    LongestSum,
    SpareBytes,
    ExactOutput,
    LongerOutput,
}

#[derive(Clone, Copy, Debug, PartialEq, Eq, PartialOrd, Ord)]
pub enum Situation {
    Read(Fault),
    Write(Fault),
    ReadOrder(Order),
    WriteOrder(Order),
    ReadLimit(Limit),
    WriteLimit(Limit),
}

/// How often each situation comes in a case file. Each case is answered with the
/// number of its first fault, or is accepted where it has none.
pub fn situations_of_statistics(file: &[u8]) -> BTreeMap<Situation, usize> {
    let mut counts = BTreeMap::new();
    let mut count = |situation| *counts.entry(situation).or_default() += 1;
    for case in CaseFile::new(file) {
        match case {
            Case::ReportRead(body) => look_at_body(body, &mut count),
            Case::ReturnWrite(case) => look_at_writing(&case, &mut count),
            _ => {}
        }
    }
    counts
}

fn look_at_body(body: &[u8], count: &mut impl FnMut(Situation)) {
    let walk = Walk::over(body);
    let read = read_layout_return(body);
    let expected = walk.found.first().map(|found| found.1.number());
    assert_eq!(read.as_ref().err().map(|refusal| refusal.number()), expected, "{:?}", walk.found);
    if let Some(&(_, first)) = walk.found.first() {
        count(Situation::Read(first));
    }
    orders_of(&walk.found).into_iter().for_each(|order| count(Situation::ReadOrder(order)));
    if walk.count == Some(8) {
        count(Situation::ReadLimit(Limit::Eight));
    }
    for statistic in read.iter().flat_map(|read| &read.statistics) {
        limits_of(statistic).into_iter().for_each(|limit| count(Situation::ReadLimit(limit)));
    }
}

fn look_at_writing(case: &ReturnWrite, count: &mut impl FnMut(Situation)) {
    let found = faults_of_writing(case);
    let mut output = vec![0; case.reports.output_length];
    let answer = written(case, &mut output);
    let expected = found.first().map(|found| found.1.number());
    assert_eq!(answer.err().map(Refusal::number), expected, "{found:?}");
    if let Some(&(_, first)) = found.first() {
        count(Situation::Write(first));
    }
    orders_of(&found).into_iter().for_each(|order| count(Situation::WriteOrder(order)));
    let Ok(size) = answer else { return };
    let fit = if size == output.len() { Limit::ExactOutput } else { Limit::LongerOutput };
    count(Situation::WriteLimit(fit));
    let statistics = &case.statistics[..case.statistics_count as usize];
    if statistics.len() == 8 {
        count(Situation::WriteLimit(Limit::Eight));
    }
    for statistic in statistics {
        limits_of(statistic).into_iter().for_each(|limit| count(Situation::WriteLimit(limit)));
    }
}

fn written(case: &ReturnWrite, output: &mut [u8]) -> Result<usize, Refusal> {
    let reports = &case.reports;
    let ReturnWrite { statistics_count, statistics, .. } = case;
    write_layout_return(reports.report_count, &reports.heads, &reports.errors, *statistics_count, statistics, output)
}

fn orders_of(found: &[Found]) -> Vec<Order> {
    let Some((&(record, first), later)) = found.split_first() else { return Vec::new() };
    let order = |&(other, second): &Found| match (first.number(), second.number()) {
        _ if first == Fault::TooManyStatistics => {
            (second == Fault::Report(5)).then_some(Order::StatisticsCountThenReport)
        }
        _ if matches!(first, Fault::Report(_)) => other.is_some().then_some(Order::ReportThenRecord),
        (number, 26) => record.is_some().then_some(Order::RecordThenOutput(number)),
        (8, 28) if record == other => Some(Order::LengthThenTime),
        (28, 7) if record == other => Some(Order::TimeThenLocal),
        (28, 8) if record < other => Some(Order::TimeThenLaterLength),
        _ => None,
    };
    let mut orders: Vec<Order> = later.iter().filter_map(order).collect();
    orders.sort();
    orders.dedup();
    orders
}

/// The limits that an accepted record is at.
fn limits_of(statistic: &Statistic) -> Vec<Limit> {
    let mut limits = vec![Limit::Local(statistic.local)];
    let lengths = [statistic.netid.length, statistic.address.length, statistic.filehandle.length];
    for ((opaque, most), length) in OPAQUES.into_iter().zip(lengths) {
        limits.extend((length == 1).then_some(Limit::Shortest(opaque)));
        limits.extend((length == most).then_some(Limit::Longest(opaque)));
    }
    for (place, time) in (0..).zip(statistic.times()) {
        limits.extend((time.seconds == i64::MAX).then_some(Limit::Seconds(place)));
        limits.extend((time.nanoseconds == 999_999_999).then_some(Limit::Nanoseconds(place)));
    }
    let Statistic { offset, length, .. } = *statistic;
    if length == u64::MAX {
        limits.extend((offset > 0).then_some(Limit::ToTheLastByte));
    } else {
        limits.extend((u64::MAX - length == offset).then_some(Limit::LongestSum));
    }
    let spare = statistic.filehandle.bytes.iter().skip(statistic.filehandle.length as usize);
    limits.extend(spare.copied().any(|byte| byte != 0).then_some(Limit::SpareBytes));
    limits
}

/// Every situation that the case files must meet.
pub fn all_situations() -> Vec<Situation> {
    let mut situations: Vec<Situation> = items().into_iter().map(|item| Situation::Read(Fault::Cut(item))).collect();
    situations.push(Situation::Read(Fault::LeftOver));
    situations.extend(OPAQUES.map(|(opaque, _)| Situation::Read(Fault::Padding(opaque))));
    for fault in faults_both_ways() {
        situations.extend([Situation::Read(fault), Situation::Write(fault)]);
    }
    let of_writing = [Fault::TooManyReports, Fault::ListLength, Fault::OutputShortByOne, Fault::OutputShorter];
    situations.extend(of_writing.map(Situation::Write));
    let orders = [Order::LengthThenTime, Order::TimeThenLocal, Order::TimeThenLaterLength, Order::ReportThenRecord];
    situations.extend(orders.map(Situation::ReadOrder));
    situations.extend(orders.map(Situation::WriteOrder));
    situations.push(Situation::WriteOrder(Order::StatisticsCountThenReport));
    situations.extend([5, 8, 28, 7].map(|number| Situation::WriteOrder(Order::RecordThenOutput(number))));
    for limit in limits() {
        situations.extend([Situation::ReadLimit(limit), Situation::WriteLimit(limit)]);
    }
    situations.push(Situation::ReadLimit(Limit::Eight));
    let of_writing = [Limit::SpareBytes, Limit::ExactOutput, Limit::LongerOutput];
    situations.extend(of_writing.map(Situation::WriteLimit));
    situations
}

fn limits() -> Vec<Limit> {
    let mut limits = vec![Limit::Local(0), Limit::Local(1), Limit::ToTheLastByte, Limit::LongestSum];
    limits.extend(OPAQUES.into_iter().flat_map(|(opaque, _)| [Limit::Shortest(opaque), Limit::Longest(opaque)]));
    limits.extend((0..5).flat_map(|place| [Limit::Seconds(place), Limit::Nanoseconds(place)]));
    limits
}
