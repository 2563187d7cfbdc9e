//! The case file: records of payload length (LE4), kind (LE2) and payload.
//!
//! Numbers in a payload are little-endian unless the payload is a wire body.

use crate::binding::BindRequest;
use crate::event::Event;
use crate::fields::Fields;
use crate::io_request::IoRequest;
use crate::report::{DeviceError, ReportHead, REPORT_LIMIT};
use crate::statistic_records::{encode_statistic, parse_statistic};
use crate::statistics::{Statistic, STATISTICS_LIMIT};
use crate::table_cases::{encode_table_case, parse_table_case, TableCase};

/// "A payload has at most 16,000 bytes."
pub const PAYLOAD_LIMIT: usize = 16_000;
/// The largest output that a report-write case may ask for.
pub const OUTPUT_LIMIT: u32 = 4_096;
/// The largest output that a return-write case may ask for.
pub const RETURN_OUTPUT_LIMIT: u32 = 8_192;
/// The longest error list that a report-write or return-write case may hold.
pub const ERROR_LIST_LIMIT: u32 = 128;

/// The kinds of case of the wire part, by their numbers in the file.
pub mod kind {
    pub const LAYOUT_BODY: u16 = 64;
    pub const LAYOUT4: u16 = 65;
    pub const DEVICE: u16 = 66;
    pub const BIND: u16 = 67;
    pub const REPORT_READ: u16 = 68;
    pub const REPORT_WRITE: u16 = 69;
    pub const RETURN_WRITE: u16 = 78;
}

/// One case, ready to be put to the core.
#[derive(Clone, Debug, PartialEq, Eq)]
pub enum Case<'a> {
    LayoutBody(&'a [u8]),
    Layout4(&'a [u8]),
    Device(&'a [u8]),
    Bind(BindRequest<'a>),
    ReportRead(&'a [u8]),
    ReportWrite(Box<ReportWrite>),
    ReturnWrite(Box<ReturnWrite>),
    Table(TableCase),
}

/// A case of writing reports. `report_count` may be more than the reports that
/// are in the payload, of which there are at most 8.
#[derive(Clone, Debug, Default, PartialEq, Eq)]
pub struct ReportWrite {
    pub output_length: usize,
    pub report_count: u32,
    pub heads: [ReportHead; REPORT_LIMIT as usize],
    pub errors: Vec<DeviceError>,
}

/// A case of writing reports and statistics. `statistics_count` may be more than
/// the records that are in the payload, of which there are at most 8.
#[derive(Clone, Debug, Default, PartialEq, Eq)]
pub struct ReturnWrite {
    pub reports: ReportWrite,
    pub statistics_count: u32,
    pub statistics: [Statistic; STATISTICS_LIMIT as usize],
}

/// How a case file ends; the number is an offset in the file.
#[derive(Clone, Copy, Debug, PartialEq, Eq)]
pub enum Ending {
    /// Every record was read; the file's length.
    End(usize),
    /// The first byte of a record that is none.
    Stop(usize),
}

/// The records of a case file, front to back.
#[derive(Clone, Debug)]
pub struct CaseFile<'a> {
    bytes: &'a [u8],
    at: usize,
}

impl<'a> CaseFile<'a> {
    pub fn new(bytes: &'a [u8]) -> Self {
        CaseFile { bytes, at: 0 }
    }

    /// How the file ends, once the iterator has given its last case.
    pub fn ending(&self) -> Ending {
        if self.at == self.bytes.len() {
            Ending::End(self.at)
        } else {
            Ending::Stop(self.at)
        }
    }
}

impl<'a> Iterator for CaseFile<'a> {
    type Item = Case<'a>;

    /// Stays before a record that is cut, too long, of an unknown kind or not
    /// of its kind's form.
    fn next(&mut self) -> Option<Case<'a>> {
        let mut fields = Fields { rest: &self.bytes[self.at..] };
        let length = fields.u32()? as usize;
        let kind = fields.u16()?;
        if length > PAYLOAD_LIMIT {
            return None;
        }
        let case = parse_case(kind, fields.take(length)?)?;
        self.at = self.bytes.len() - fields.rest.len();
        Some(case)
    }
}

/// A payload of the given kind, or nothing where it does not have its form.
fn parse_case(kind: u16, payload: &[u8]) -> Option<Case<'_>> {
    match kind {
        kind::LAYOUT_BODY => Some(Case::LayoutBody(payload)),
        kind::LAYOUT4 => Some(Case::Layout4(payload)),
        kind::DEVICE => Some(Case::Device(payload)),
        kind::BIND => parse_bind(payload).map(Case::Bind),
        kind::REPORT_READ => Some(Case::ReportRead(payload)),
        kind::REPORT_WRITE => parse_report_write(payload).map(Box::new).map(Case::ReportWrite),
        kind::RETURN_WRITE => parse_return_write(payload).map(Box::new).map(Case::ReturnWrite),
        _ => parse_table_case(kind, payload).map(Case::Table),
    }
}

/// "mirror (LE4), stripe (LE4), supported versions (LE4), device id (16), layout
/// length (LE4), layout body, device body"
fn parse_bind(payload: &[u8]) -> Option<BindRequest<'_>> {
    let mut fields = Fields { rest: payload };
    let mirror = fields.u32()?;
    let stripe = fields.u32()?;
    let supported_versions = fields.u32()?;
    let device_id = fields.fixed()?;
    let layout_length = fields.u32()? as usize;
    let layout_body = fields.take(layout_length)?;
    let device_body = fields.rest;
    Some(BindRequest { mirror, stripe, supported_versions, device_id, layout_body, device_body })
}

fn parse_report_write(payload: &[u8]) -> Option<ReportWrite> {
    let mut fields = Fields { rest: payload };
    let case = parse_reports(&mut fields, OUTPUT_LIMIT)?;
    fields.rest.is_empty().then_some(case)
}

/// As report-write, then "statistics count (LE4); as many records, or 8 where
/// the count is higher".
fn parse_return_write(payload: &[u8]) -> Option<ReturnWrite> {
    let mut fields = Fields { rest: payload };
    let reports = parse_reports(&mut fields, RETURN_OUTPUT_LIMIT)?;
    let statistics_count = fields.u32()?;
    let mut statistics = [Statistic::default(); STATISTICS_LIMIT as usize];
    for statistic in &mut statistics[..statistics_count.min(STATISTICS_LIMIT) as usize] {
        *statistic = parse_statistic(&mut fields)?;
    }
    fields.rest.is_empty().then_some(ReturnWrite { reports, statistics_count, statistics })
}

/// "output length (LE4, at most 4,096), report count (LE4), that many reports
/// but at most 8: offset (LE8), length (LE8), stateid (16), error count (LE4);
/// list length (LE4, at most 128), errors"
fn parse_reports(fields: &mut Fields, output_limit: u32) -> Option<ReportWrite> {
    let output_length = fields.u32_up_to(output_limit)? as usize;
    let report_count = fields.u32()?;
    let mut heads = [ReportHead::default(); REPORT_LIMIT as usize];
    for head in &mut heads[..report_count.min(REPORT_LIMIT) as usize] {
        *head = parse_report_head(fields)?;
    }
    let list_length = fields.u32_up_to(ERROR_LIST_LIMIT)?;
    let errors = (0..list_length).map(|_| parse_device_error(fields)).collect::<Option<Vec<_>>>()?;
    Some(ReportWrite { output_length, report_count, heads, errors })
}

fn parse_report_head(fields: &mut Fields) -> Option<ReportHead> {
    Some(ReportHead {
        offset: fields.u64()?,
        length: fields.u64()?,
        stateid: fields.fixed()?,
        error_count: fields.u32()?,
    })
}

/// "device id (16), status (LE4), operation (LE4)"
fn parse_device_error(fields: &mut Fields) -> Option<DeviceError> {
    Some(DeviceError { device_id: fields.fixed()?, status: fields.u32()?, operation: fields.u32()? })
}

fn encode_report_write(case: &ReportWrite) -> Vec<u8> {
    let mut payload = Vec::new();
    payload.extend((case.output_length as u32).to_le_bytes());
    payload.extend(case.report_count.to_le_bytes());
    for head in &case.heads[..case.report_count.min(REPORT_LIMIT) as usize] {
        payload.extend(head.offset.to_le_bytes());
        payload.extend(head.length.to_le_bytes());
        payload.extend(head.stateid);
        payload.extend(head.error_count.to_le_bytes());
    }
    payload.extend((case.errors.len() as u32).to_le_bytes());
    for error in &case.errors {
        payload.extend(error.device_id);
        payload.extend(error.status.to_le_bytes());
        payload.extend(error.operation.to_le_bytes());
    }
    payload
}

/// The payload of a return-write record.
pub fn encode_return_write(case: &ReturnWrite) -> Vec<u8> {
    let mut payload = encode_report_write(&case.reports);
    payload.extend(case.statistics_count.to_le_bytes());
    for statistic in &case.statistics[..case.statistics_count.min(STATISTICS_LIMIT) as usize] {
        payload.extend(encode_statistic(statistic));
    }
    payload
}

/// A case file being made.
#[derive(Clone, Debug, Default)]
pub struct CaseFileWriter {
    bytes: Vec<u8>,
}

impl CaseFileWriter {
    /// Appends a record.
    pub fn record(&mut self, kind: u16, payload: &[u8]) {
        self.bytes.extend((payload.len() as u32).to_le_bytes());
        self.bytes.extend(kind.to_le_bytes());
        self.bytes.extend(payload);
    }

    /// Appends a bind record.
    pub fn bind(&mut self, request: &BindRequest) {
        let mut payload = Vec::new();
        payload.extend(request.mirror.to_le_bytes());
        payload.extend(request.stripe.to_le_bytes());
        payload.extend(request.supported_versions.to_le_bytes());
        payload.extend(request.device_id);
        payload.extend((request.layout_body.len() as u32).to_le_bytes());
        payload.extend(request.layout_body);
        payload.extend(request.device_body);
        self.record(kind::BIND, &payload);
    }

    /// Appends a report-write record.
    pub fn report_write(&mut self, case: &ReportWrite) {
        self.record(kind::REPORT_WRITE, &encode_report_write(case));
    }

    /// Appends a return-write record.
    pub fn return_write(&mut self, case: &ReturnWrite) {
        self.record(kind::RETURN_WRITE, &encode_return_write(case));
    }

    /// Appends a record that concerns the table.
    pub fn table(&mut self, case: &TableCase) {
        let (kind, payload) = encode_table_case(case);
        self.record(kind, &payload);
    }

    /// Appends the record of an event.
    pub fn event(&mut self, event: Event) {
        self.table(&TableCase::Event(event));
    }

    /// Appends the record of an I/O request.
    pub fn locate(&mut self, request: IoRequest) {
        self.table(&TableCase::Locate(request));
    }

    /// Appends bytes that are no record.
    pub fn raw(&mut self, bytes: &[u8]) {
        self.bytes.extend(bytes);
    }

    /// The file made so far.
    pub fn bytes(&self) -> &[u8] {
        &self.bytes
    }

    /// The finished file.
    pub fn into_bytes(self) -> Vec<u8> {
        self.bytes
    }
}

#[cfg(test)]
mod tests {
    use super::*;

    fn record(kind: u16, payload: &[u8]) -> Vec<u8> {
        let mut file = CaseFileWriter::default();
        file.record(kind, payload);
        file.into_bytes()
    }

    fn ending(bytes: &[u8]) -> Ending {
        let mut file = CaseFile::new(bytes);
        while file.next().is_some() {}
        file.ending()
    }

    #[test]
    fn an_empty_file_ends_at_once() {
        assert_eq!(ending(&[]), Ending::End(0));
    }

    #[test]
    fn a_record_is_length_kind_and_payload() {
        let bytes = [3, 0, 0, 0, 64, 0, 1, 2, 3, 0, 0, 0, 0, 68, 0];
        let mut file = CaseFile::new(&bytes);
        assert_eq!(file.next(), Some(Case::LayoutBody(&[1, 2, 3])));
        assert_eq!(file.next(), Some(Case::ReportRead(&[])));
        assert_eq!(file.next(), None);
        assert_eq!(file.ending(), Ending::End(15));
    }

    #[test]
    fn a_cut_record_stops_at_its_first_byte() {
        let bytes = [record(66, &[1]), record(65, &[1, 2])].concat();
        for cut in 8..15 {
            assert_eq!(ending(&bytes[..cut]), Ending::Stop(7));
        }
    }

    #[test]
    fn an_unknown_kind_and_a_long_payload_stop() {
        for kind in [0, 2, 3, 6, 7, 8, 10, 63, 79, 64 + 256, 78 + 256, u16::MAX] {
            assert_eq!(ending(&record(kind, &[])), Ending::Stop(0));
        }
        assert_eq!(ending(&record(64, &[0; 16_000])), Ending::End(16_006));
        assert_eq!(ending(&record(64, &[0; 16_001])), Ending::Stop(0));
    }

    #[test]
    fn bind_payloads_hold_their_layout() {
        let mut payload = vec![0; 32];
        assert_eq!(ending(&record(67, &payload)), Ending::End(38));
        assert_eq!(ending(&record(67, &payload[..31])), Ending::Stop(0));
        payload[28] = 2;
        assert_eq!(ending(&record(67, &payload)), Ending::Stop(0));
        payload.extend([5, 6, 7]);
        let bytes = record(67, &payload);
        let Some(Case::Bind(request)) = CaseFile::new(&bytes).next() else { panic!("no bind") };
        assert_eq!((request.layout_body, request.device_body), (&[5, 6][..], &[7][..]));
    }

    #[test]
    fn report_write_payloads_are_exact() {
        let good = [&[0, 16, 0, 0, 0, 0, 0, 0][..], &[0, 0, 0, 0]].concat();
        assert_eq!(ending(&record(69, &good)), Ending::End(18));
        assert_eq!(ending(&record(69, &good[..11])), Ending::Stop(0));
        assert_eq!(ending(&record(69, &[&good[..], &[0]].concat())), Ending::Stop(0));
        let long_output = [&[1, 16, 0, 0][..], &good[4..]].concat();
        assert_eq!(ending(&record(69, &long_output)), Ending::Stop(0));
        let list = |length: u8| [&good[..8], &[length, 0, 0, 0], &vec![0; length as usize * 24]].concat();
        assert_eq!(ending(&record(69, &list(128))), Ending::End(18 + 128 * 24));
        assert_eq!(ending(&record(69, &list(129))), Ending::Stop(0));
    }

    #[test]
    fn return_write_payloads_are_exact() {
        // An output of 8,192 bytes, no report, no error, no record.
        let good = [&[0, 32, 0, 0][..], &[0; 12]].concat();
        assert_eq!(ending(&record(78, &good)), Ending::End(22));
        for length in 0..16 {
            assert_eq!(ending(&record(78, &good[..length])), Ending::Stop(0), "{length} bytes");
        }
        assert_eq!(ending(&record(78, &[&good[..], &[0]].concat())), Ending::Stop(0));
        let long_output = [&[1, 32, 0, 0][..], &good[4..]].concat();
        assert_eq!(ending(&record(78, &long_output)), Ending::Stop(0));
        let list = |length: u8| [&good[..8], &[length, 0, 0, 0], &vec![0; length as usize * 24], &[0; 4]].concat();
        assert_eq!(ending(&record(78, &list(128))), Ending::End(22 + 128 * 24));
        assert_eq!(ending(&record(78, &list(129))), Ending::Stop(0));
    }

    #[test]
    fn at_most_eight_records_stand_in_a_payload() {
        for (count, records) in [(0, 0), (1, 1), (7, 7), (8, 8), (9, 8), (1 << 31, 8), (u32::MAX, 8)] {
            let of_length = |length: usize| {
                let payload = [&[0; 12][..], &u32::to_le_bytes(count), &vec![7; length]].concat();
                record(78, &payload)
            };
            let length = records * 436;
            let bytes = of_length(length);
            let Some(Case::ReturnWrite(case)) = CaseFile::new(&bytes).next() else { panic!("no case") };
            assert_eq!(case.statistics_count, count);
            let read = case.statistics.iter().filter(|statistic| statistic.local == 0x0707_0707).count();
            assert_eq!(read, records);
            assert_eq!(ending(&of_length(length + 1)), Ending::Stop(0));
            assert!(records == 0 || ending(&of_length(length - 1)) == Ending::Stop(0));
        }
    }

    #[test]
    fn the_largest_return_write_fits_a_payload() {
        let mut case = ReturnWrite { statistics_count: 8, ..Default::default() };
        case.reports.report_count = 8;
        case.reports.errors = vec![DeviceError::default(); 128];
        let payload = encode_return_write(&case);
        assert_eq!(payload.len(), 8 + 8 * 36 + 4 + 128 * 24 + 4 + 8 * 436);
        assert_eq!(ending(&record(78, &payload)), Ending::End(6 + payload.len()));
    }

    #[test]
    fn at_most_eight_reports_stand_in_a_payload() {
        for count in [8, 9, u32::MAX] {
            let mut payload = vec![0; 4];
            payload.extend(count.to_le_bytes());
            payload.extend([0; 8 * 36 + 4]);
            let bytes = record(69, &payload);
            let Some(Case::ReportWrite(case)) = CaseFile::new(&bytes).next() else { panic!("no case") };
            assert_eq!(case.report_count, count);
        }
    }

    #[test]
    fn what_is_written_is_read_again() {
        let mut case = ReportWrite { output_length: 70, report_count: 1, ..Default::default() };
        case.heads[0] = ReportHead { offset: 1, length: 2, stateid: [3; 16], error_count: 4 };
        case.errors = vec![DeviceError { device_id: [5; 16], status: 6, operation: 7 }];
        let request = BindRequest {
            mirror: 1,
            stripe: 2,
            supported_versions: 3,
            device_id: [4; 16],
            layout_body: &[5, 6],
            device_body: &[7],
        };
        let mut both = ReturnWrite { reports: case.clone(), statistics_count: 2, ..Default::default() };
        both.statistics[0].offset = 8;
        both.statistics[1].local = 9;
        let mut file = CaseFileWriter::default();
        file.report_write(&case);
        file.return_write(&both);
        file.bind(&request);
        file.table(&TableCase::Reset);
        let read: Vec<_> = CaseFile::new(file.bytes()).collect();
        let table = Case::Table(TableCase::Reset);
        let written =
            [Case::ReportWrite(Box::new(case)), Case::ReturnWrite(Box::new(both)), Case::Bind(request), table];
        assert_eq!(read, written);
    }
}
