//! Error reports, for LAYOUTRETURN.

use crate::device::{id_at, DeviceId};
use crate::raw::{self, count, ErrorRecord, ReportHead, ReportHeads, REPORTS};
use crate::refusal::{accepted, Refusal};

/// An output of so many bytes is enough for any reports without statistics.
pub const LONGEST_REPORT: usize = 3_368;

/// The bytes of one error in a report body.
const ERROR_LENGTH: usize = 24;

/// The operations that an error may be of, by their numbers in NFS.
#[derive(Clone, Copy, Debug, PartialEq, Eq, Hash)]
pub enum Operation {
    Commit = 5,
    Read = 25,
    Write = 38,
}

impl Operation {
    fn from_number(number: u32) -> Option<Operation> {
        [Operation::Commit, Operation::Read, Operation::Write].into_iter().find(|&known| known as u32 == number)
    }
}

/// An I/O that failed.
#[derive(Clone, Copy, Debug, PartialEq, Eq, Hash)]
pub struct IoError {
    pub device: DeviceId,
    /// A status of NFS; 0 is refused.
    pub status: u32,
    pub operation: Operation,
}

/// The errors in a range. One has 1 to 16 errors; there are at most 8 reports.
#[derive(Clone, Debug, PartialEq, Eq)]
pub struct Report {
    pub offset: u64,
    /// 2^64 - 1 means through the last byte.
    pub length: u64,
    pub stateid: [u8; 16],
    pub errors: Vec<IoError>,
}

/// The error that is at an offset of an `ff_layoutreturn4` body, whatever is before and after it. Any offset may
/// be asked for: what is no error there is refused.
pub fn read_error(body: &[u8], at: usize) -> Result<IoError, Refusal> {
    let read = raw::read_error(body, at);
    accepted(read.refusal)?;
    let operation = Operation::from_number(read.operation).expect("the core answers COMMIT, READ or WRITE");
    Ok(IoError { device: id_at(body, read.device), status: read.status, operation })
}

/// The reports in an `ff_layoutreturn4` body. Its statistics are judged too.
pub fn read_reports(body: &[u8]) -> Result<Vec<Report>, Refusal> {
    let read = raw::read_reports(body);
    accepted(read.refusal)?;
    let reports = read.heads.iter().zip(read.errors_at).take(read.count as usize);
    reports.map(|(head, first)| report_at(body, head, first)).collect()
}

fn report_at(body: &[u8], head: &ReportHead, first: usize) -> Result<Report, Refusal> {
    let errors = (0..head.errors as usize).map(|k| read_error(body, first + ERROR_LENGTH * k));
    let errors = errors.collect::<Result<_, _>>()?;
    Ok(Report { offset: head.offset, length: head.length, stateid: head.stateid, errors })
}

/// Writes reports as an `ff_layoutreturn4` body without statistics to the front of an output, and answers its length.
pub fn write_reports(reports: &[Report], out: &mut [u8]) -> Result<usize, Refusal> {
    let heads = ReportHeads { heads: heads(reports) };
    let written = raw::write_report(count(reports.len()), heads, &errors(reports), out);
    accepted(written.refusal)?;
    Ok(written.length as usize)
}

/// Of more reports than there may be only the first ones: the core refuses their number.
pub(crate) fn heads(reports: &[Report]) -> [ReportHead; REPORTS] {
    let mut heads = [ReportHead::default(); REPORTS];
    for (head, report) in heads.iter_mut().zip(reports) {
        let Report { offset, length, stateid, ref errors } = *report;
        *head = ReportHead { offset, length, stateid, errors: count(errors.len()) };
    }
    heads
}

/// The errors of all reports, one after the other.
pub(crate) fn errors(reports: &[Report]) -> Vec<ErrorRecord> {
    reports.iter().flat_map(|report| &report.errors).map(record).collect()
}

fn record(error: &IoError) -> ErrorRecord {
    ErrorRecord { device: error.device.0, status: error.status, operation: error.operation as u32 }
}
