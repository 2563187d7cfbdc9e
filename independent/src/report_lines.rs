//! The lines of the cases in which an `ff_layoutreturn4` body is read or
//! written.

use crate::answers::{hex, joined, line};
use crate::cases::{ReportWrite, ReturnWrite};
use crate::refusal::Refusal;
use crate::report::{write_layout_return, write_reports, DeviceError, LayoutReturn};
use crate::statistics::{IoInfo, Latency, Statistic, Time};

/// "the output is filled with the byte 165 before the call"
const OUTPUT_FILL: u8 = 165;

/// What an accepted body holds: the reports, then ` statistics=J` and the
/// records.
pub fn layout_return_text(layout_return: &LayoutReturn) -> String {
    let mut text = format!("reports={}", layout_return.heads.len());
    let mut rest = layout_return.errors.as_slice();
    for head in &layout_return.heads {
        let (own, later) = rest.split_at(head.error_count as usize);
        let stateid = hex(&head.stateid);
        let errors = joined(own.iter(), "+", error_text);
        text.push_str(&format!(" offset={},length={},stateid={stateid},errors={errors}", head.offset, head.length));
        rest = later;
    }
    text.push_str(&format!(" statistics={}", layout_return.statistics.len()));
    for statistic in &layout_return.statistics {
        text.push(' ');
        text.push_str(&statistic_text(statistic));
    }
    text
}

fn error_text(error: &DeviceError) -> String {
    format!("{}/{}/{}", hex(&error.device_id), error.status, error.operation)
}

fn statistic_text(statistic: &Statistic) -> String {
    [
        format!("offset={}", statistic.offset),
        format!("length={}", statistic.length),
        format!("stateid={}", hex(&statistic.stateid)),
        format!("read={}", io_info_text(&statistic.read)),
        format!("write={}", io_info_text(&statistic.write)),
        format!("device={}", hex(&statistic.device_id)),
        format!("netid={}", hex(statistic.netid.content())),
        format!("address={}", hex(statistic.address.content())),
        format!("filehandle={}", hex(statistic.filehandle.content())),
        format!("read-latency={}", latency_text(&statistic.read_latency)),
        format!("write-latency={}", latency_text(&statistic.write_latency)),
        format!("duration={}", time_text(&statistic.duration)),
        format!("local={}", statistic.local),
    ]
    .join(",")
}

fn io_info_text(io_info: &IoInfo) -> String {
    format!("{}/{}", io_info.count, io_info.bytes)
}

fn latency_text(latency: &Latency) -> String {
    let numbers = joined(latency.numbers().iter(), "/", |number| number.to_string());
    let busy = time_text(&latency.total_busy_time);
    let completion = time_text(&latency.aggregate_completion_time);
    format!("{numbers}/{busy}/{completion}")
}

fn time_text(time: &Time) -> String {
    format!("{}/{}", time.seconds, time.nanoseconds)
}

pub fn report_write_line(case: &ReportWrite) -> String {
    written_line("report-write", case.output_length, |output| {
        write_reports(case.report_count, &case.heads, &case.errors, output)
    })
}

pub fn return_write_line(case: &ReturnWrite) -> String {
    let ReportWrite { output_length, report_count, heads, errors } = &case.reports;
    written_line("return-write", *output_length, |output| {
        write_layout_return(*report_count, heads, errors, case.statistics_count, &case.statistics, output)
    })
}

/// The output is printed whether the case is accepted or refused.
fn written_line(name: &str, length: usize, write: impl Fn(&mut [u8]) -> Result<usize, Refusal>) -> String {
    let mut output = vec![OUTPUT_FILL; length];
    let outcome = write(&mut output);
    let head = line(name, outcome, |length| format!("length={length}"));
    format!("{head} output={}", hex(&output))
}

#[cfg(test)]
mod tests {
    use super::*;
    use crate::answers::answer_line as line_of;
    use crate::cases::Case;
    use crate::report::ReportHead;
    use crate::samples::bodies::{encode_reports, ReportPlan};
    use crate::samples::statistics::{encode_layout_return, StatisticPlan};
    use crate::state::State;

    fn answer_line(case: &Case) -> String {
        line_of(&mut State::default(), case)
    }

    /// The record of the line below.
    fn record() -> StatisticPlan {
        StatisticPlan {
            offset: 1,
            length: u64::MAX,
            stateid: [0x0c; 16],
            transfers: [2, 3, 4, 5],
            device_id: [0xab; 16],
            netid: b"tcp".to_vec(),
            address: vec![0, 0x1f],
            filehandle: vec![0xfe; 5],
            latency_numbers: [[6, 7, 8, 9, 10], [11, 12, 13, 14, 15]],
            times: [(16, 17), (18, 19), (20, 21), (22, 23), ((1 << 63) - 1, 999_999_999)],
            local: 1,
        }
    }

    fn record_text() -> String {
        [
            "offset=1,length=18446744073709551615,stateid=0c0c0c0c0c0c0c0c0c0c0c0c0c0c0c0c,read=2/3,write=4/5,",
            "device=abababababababababababababababab,netid=746370,address=001f,filehandle=fefefefefe,",
            "read-latency=6/7/8/9/10/16/17/18/19,write-latency=11/12/13/14/15/20/21/22/23,",
            "duration=9223372036854775807/999999999,local=1",
        ]
        .concat()
    }

    #[test]
    fn report_read_lines() {
        assert_eq!(answer_line(&Case::ReportRead(&[0; 8])), "report-read reports=0 statistics=0");
        let error = DeviceError { device_id: [0xab; 16], status: 5, operation: 25 };
        let report = ReportPlan { offset: 1, length: 2, stateid: [0x0c; 16], errors: vec![error; 2] };
        let error = format!("{}/5/25", "ab".repeat(16));
        let report_text = format!("offset=1,length=2,stateid={},errors={error}+{error}", "0c".repeat(16));
        assert_eq!(
            answer_line(&Case::ReportRead(&encode_reports(&[report.clone()], 0).bytes)),
            format!("report-read reports=1 {report_text} statistics=0")
        );
        assert_eq!(answer_line(&Case::ReportRead(&[255; 8])), "report-read refused 8");
        let records = [record(), record()];
        let text = record_text();
        assert_eq!(
            answer_line(&Case::ReportRead(&encode_layout_return(&[report], &records).bytes)),
            format!("report-read reports=1 {report_text} statistics=2 {text} {text}")
        );
    }

    #[test]
    fn report_write_lines() {
        let answer = |case: &ReportWrite| answer_line(&Case::ReportWrite(Box::new(case.clone())));
        let mut case = ReportWrite { output_length: 9, ..Default::default() };
        assert_eq!(answer(&case), "report-write length=8 output=0000000000000000a5");
        case.output_length = 2;
        assert_eq!(answer(&case), "report-write refused 26 output=a5a5");
        case.output_length = 0;
        case.report_count = 1;
        case.heads[0] = ReportHead::default();
        assert_eq!(answer(&case), "report-write refused 5 output=");
    }

    #[test]
    fn return_write_lines() {
        let answer = |case: &ReturnWrite| answer_line(&Case::ReturnWrite(Box::new(case.clone())));
        let mut case = ReturnWrite::default();
        case.reports.output_length = 9;
        assert_eq!(answer(&case), "return-write length=8 output=0000000000000000a5");
        case.statistics_count = 1;
        case.statistics[0] = record().record(165);
        assert_eq!(answer(&case), "return-write refused 26 output=a5a5a5a5a5a5a5a5a5");
        case.statistics[0].read_latency.total_busy_time.nanoseconds = 1_000_000_000;
        case.reports.output_length = 1;
        assert_eq!(answer(&case), "return-write refused 28 output=a5");
        case.statistics[0] = StatisticPlan::smallest(1).record(165);
        case.reports.output_length = 257;
        let body = encode_layout_return(&[], &[StatisticPlan::smallest(1)]).bytes;
        assert_eq!(answer(&case), format!("return-write length=256 output={}a5", hex(&body)));
    }
}
