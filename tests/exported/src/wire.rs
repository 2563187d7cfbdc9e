//! The cases of the wire: each body put to both sides.

use crate::tally::Tally;
use crate::{expected, same};
use basilothyn::raw::{self, ErrorRecord, Outgoing, ReportHeads};
use basilothyn::{IoError, Refusal, Statistic, Statistics};
use independent::binding::bind;
use independent::cases::{Case, ReportWrite, ReturnWrite};
use independent::device::read_device_body;
use independent::layout::read_layout_body;
use independent::layout4::read_layout4;
use independent::report::{read_layout_return, write_layout_return, write_reports, DeviceError};

/// What is in an output before it is written to.
const FILL: u8 = 165;

pub fn compare(case: &Case, tally: &mut Tally) -> Result<(), String> {
    match case {
        Case::LayoutBody(body) => {
            let answered = raw::read_layout(body);
            tally.count(answered.refusal);
            same("the layout body", expected::layout(read_layout_body(body)), answered)
        }
        Case::Layout4(bytes) => {
            let answered = raw::read_layout4(bytes);
            tally.count(answered.refusal);
            same("the layout4", expected::layout4(read_layout4(bytes)), answered)
        }
        Case::Device(body) => {
            let answered = raw::read_device(body);
            tally.count(answered.refusal);
            same("the device body", expected::device(read_device_body(body)), answered)
        }
        Case::Bind(r) => {
            let answered =
                raw::bind(r.layout_body, r.mirror, r.stripe, r.device_body, &r.device_id, r.supported_versions);
            tally.count(answered.refusal);
            same("the binding", expected::binding(bind(r)), answered)
        }
        Case::ReportRead(body) => compare_reading(body, tally),
        Case::ReportWrite(case) => compare_writing(case, tally),
        Case::ReturnWrite(case) => compare_return_writing(case, tally),
        Case::Table(_) => Ok(()),
    }
}

/// The reports and the statistics of a body, by both functions; what was read is written again.
fn compare_reading(body: &[u8], tally: &mut Tally) -> Result<(), String> {
    let read = read_layout_return(body);
    let answered = raw::read_reports(body);
    tally.count(answered.refusal);
    same("the reports", expected::reports(read.clone()), answered)?;
    let statistics = raw::read_statistics(body);
    tally.count(statistics.refusal);
    same("the statistics", expected::statistics(read.clone()), statistics)?;
    compare_walk(body, answered.refusal, &read.map_or(Vec::new(), |reports| reports.errors))?;
    compare_rewritten(body, answered.refusal)?;
    compare_errors(body, tally)
}

/// The wrapper's reports and statistics of an accepted body, written: the same bytes; or the refusal, twice.
fn compare_rewritten(body: &[u8], refusal: u32) -> Result<(), String> {
    let reports = basilothyn::read_reports(body).map_err(Refusal::number);
    let statistics = Statistics::read(body).map_err(Refusal::number);
    let (Ok(reports), Ok(statistics)) = (&reports, &statistics) else {
        let refusals = (reports.err(), statistics.err());
        return same("the refusals of reports and statistics", (Some(refusal), Some(refusal)), refusals);
    };
    let records: Vec<Statistic> = statistics.iter().collect();
    let mut out = vec![FILL; body.len() + 1];
    let written = basilothyn::write_return(reports, &records, &mut out).map_err(Refusal::number);
    same("the length of what was read and written", Ok(body.len()), written)?;
    same("what was read and written", [body, &[FILL]].concat(), out)
}

/// The errors of an accepted body, each read at its offset by the wrapper; or the refusal.
fn compare_walk(body: &[u8], refusal: u32, errors: &[DeviceError]) -> Result<(), String> {
    let record = |e: IoError| ErrorRecord { device: e.device.0, status: e.status, operation: e.operation as u32 };
    let read = basilothyn::read_reports(body).map_err(Refusal::number);
    let walked = read.map(|reports| reports.into_iter().flat_map(|r| r.errors).map(record).collect());
    let expected =
        if refusal == 0 { Ok(errors.iter().map(expected::error_record).collect::<Vec<_>>()) } else { Err(refusal) };
    same("the errors of the reports", expected, walked)
}

/// An error at every offset of a body, whatever the body is, and after its end.
fn compare_errors(body: &[u8], tally: &mut Tally) -> Result<(), String> {
    for at in (0..body.len() + 25).chain([usize::MAX - 24, usize::MAX - 15, usize::MAX]) {
        same("the error at a place", (at, expected::error(body, at)), (at, raw::read_error(body, at)))?;
        tally.count_error();
    }
    Ok(())
}

fn compare_writing(case: &ReportWrite, tally: &mut Tally) -> Result<(), String> {
    let mut wanted = vec![FILL; case.output_length];
    let expected = expected::written(write_reports(case.report_count, &case.heads, &case.errors, &mut wanted));
    let heads = ReportHeads { heads: case.heads.each_ref().map(expected::head) };
    let errors: Vec<ErrorRecord> = case.errors.iter().map(expected::error_record).collect();
    let mut out = vec![FILL; case.output_length];
    let answered = raw::write_report(case.report_count, heads, &errors, &mut out);
    tally.count(answered.refusal);
    same("the written length", expected, answered)?;
    same("the written bytes", wanted, out)
}

fn compare_return_writing(case: &ReturnWrite, tally: &mut Tally) -> Result<(), String> {
    let ReturnWrite { reports, statistics_count, statistics } = case;
    let mut wanted = vec![FILL; reports.output_length];
    let ReportWrite { report_count, heads, errors, .. } = reports;
    let length = write_layout_return(*report_count, heads, errors, *statistics_count, statistics, &mut wanted);
    let outgoing = Outgoing {
        count: *report_count,
        heads: heads.each_ref().map(expected::head),
        statistic_count: *statistics_count,
        statistics: statistics.each_ref().map(expected::statistic),
    };
    let errors: Vec<ErrorRecord> = errors.iter().map(expected::error_record).collect();
    let mut out = vec![FILL; reports.output_length];
    let answered = raw::write_return(outgoing, &errors, &mut out);
    tally.count(answered.refusal);
    same("the length of the written return", expected::written(length), answered)?;
    same("the bytes of the written return", wanted, out)
}
