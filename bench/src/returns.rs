//! Layout returns with statistics, read and written.

use crate::race::{Race, Row};
use crate::tuned::{by_value, return_writing, returns};
use crate::{expected, rpcgen};
use basilothyn::raw::{self, ErrorRecord, Outgoing, REPORTS, STATISTICS};
use independent::report::{read_layout_return, write_layout_return, LayoutReturn, ReportHead};
use independent::samples::bodies::ReportPlan;
use independent::samples::statistics::{encode_layout_return, StatisticPlan};
use independent::statistics::Statistic;
use std::hint::black_box;

/// Captured: no report, and one record of 276 bytes.
const ONE_RECORD: &[u8] = include_bytes!("../../captures/stock/A1_v42_ipv4_lr000.bin");

pub fn rows() {
    read("1 record", ONE_RECORD);
    read("8 records", &body(0, 0, 8));
    written("1 report of 1 error, 1 record", &body(1, 1, 1));
    written("8 reports of 16 errors, 8 records", &body(8, 16, 8));
}

/// Records of 436 bytes, the longest.
fn body(reports: u8, errors: usize, records: u8) -> Vec<u8> {
    let reports: Vec<ReportPlan> = (0..reports).map(|number| ReportPlan::with_errors(number, errors)).collect();
    let records: Vec<StatisticPlan> = (0..records).map(StatisticPlan::largest).collect();
    encode_layout_return(&reports, &records).bytes
}

/// Two functions of the core and of the tuned Rust; the plain Rust and rpcgen's code read both halves in one call.
fn read(what: &str, body: &[u8]) -> [Row; 2] {
    let plain = read_layout_return(body);
    let (reports, statistics) = (expected::reports(plain.clone()), expected::statistics(plain));
    assert_eq!((reports.refusal, raw::read_reports(body), raw::read_statistics(body)), (0, reports, statistics));
    assert_eq!((returns::read_reports(body), returns::read_statistics(body)), (Ok(reports), Ok(statistics)));
    assert!(rpcgen::read_reports(body));
    let name = format!("layout return of {} bytes, {what}, statistics read", body.len());
    let statistics_read =
        Race::new(&name, || raw::read_statistics(black_box(body)), || read_layout_return(black_box(body)))
            .tuned(|| returns::read_statistics(black_box(body)))
            .rpcgen(|| rpcgen::read_reports(black_box(body)))
            .run();
    let name = "the same, reports read";
    let reports_read = Race::new(name, || raw::read_reports(black_box(body)), || read_layout_return(black_box(body)))
        .tuned(|| returns::read_reports(black_box(body)))
        .rpcgen(|| rpcgen::read_reports(black_box(body)))
        .run();
    [statistics_read, reports_read]
}

/// What is handed over to be written: the plain Rust's form, and the core's.
struct Given {
    read: LayoutReturn,
    heads: [ReportHead; REPORTS],
    statistics: [Statistic; STATISTICS],
    outgoing: Outgoing,
    errors: Vec<ErrorRecord>,
}

impl Given {
    fn of(body: &[u8]) -> Given {
        let read = read_layout_return(body).expect("a good body");
        let mut heads = [ReportHead::default(); REPORTS];
        heads[..read.heads.len()].copy_from_slice(&read.heads);
        let mut statistics = [Statistic::default(); STATISTICS];
        statistics[..read.statistics.len()].copy_from_slice(&read.statistics);
        let outgoing = Outgoing {
            count: read.heads.len() as u32,
            heads: heads.each_ref().map(expected::head),
            statistic_count: read.statistics.len() as u32,
            statistics: statistics.each_ref().map(expected::statistic),
        };
        let errors = read.errors.iter().map(expected::error_record).collect();
        Given { read, heads, statistics, outgoing, errors }
    }

    fn write_plain(&self, out: &mut [u8]) -> usize {
        let Given { read, heads, statistics, .. } = self;
        let counts = (read.heads.len() as u32, read.statistics.len() as u32);
        write_layout_return(counts.0, heads, black_box(&read.errors), counts.1, statistics, out).expect("a good body")
    }
}

fn written(what: &str, body: &[u8]) -> Row {
    let given = Given::of(body);
    let (outgoing, errors) = (&given.outgoing, &given.errors);
    let mut outputs = [(); 5].map(|()| vec![0; body.len()]);
    let [ours, plain, tuned, behind_boundary, generated] = &mut outputs;
    raw::write_return(*outgoing, errors, ours);
    given.write_plain(plain);
    assert_eq!(return_writing::write_return(outgoing, errors, tuned), Ok(body.len()));
    by_value::write_return(*outgoing, errors, behind_boundary);
    assert!(rpcgen::keep_reports(body));
    assert!(!cfg!(rpcgen) || rpcgen::write_reports(generated) == body.len() && *generated == body);
    assert!([&*ours, plain, tuned, behind_boundary].iter().all(|out| **out == body));
    let name = format!("layout return of {} bytes, {what}, written", body.len());
    let core = || raw::write_return(*black_box(outgoing), black_box(errors), ours).length;
    Race::new(&name, core, || given.write_plain(plain))
        .tuned(|| return_writing::write_return(black_box(outgoing), black_box(errors), tuned))
        .by_value(|| by_value::write_return(*black_box(outgoing), black_box(errors), behind_boundary).length)
        .rpcgen(|| rpcgen::write_reports(generated))
        .run()
}
