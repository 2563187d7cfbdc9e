//! Statistics of captured layout returns, read and written, and what is refused. The expected values are those that
//! Wireshark's dissector read, in captures/patched-server/index.json.

use basilothyn::raw::{self, OpaqueRecord, Outgoing, StatisticsResult, WriteResult};
use basilothyn::{
    read_reports, write_return, DeviceId, IoError, IoInfo, Latency, LayoutUpdate, Operation, Refusal, Report,
    Statistic, Statistics, LONGEST_REPORT, LONGEST_RETURN,
};
use std::path::Path;
use std::time::Duration;

/// No report and two records of 276 bytes, the first of them at 8.
const CAPTURED: &[u8] = include_bytes!("../../captures/patched-server/P1_2mirrors_eff5_9_lr000.bin");

/// The stateid and the filehandle of both records.
const STATEID: [u8; 16] = [0, 0, 0, 1, 0xcc, 0x9d, 0xf9, 0x6a, 0x10, 0xa8, 0x22, 0x66, 2, 0, 0, 0];
const FILEHANDLE: [u8; 20] = [1, 0, 1, 1, 1, 0, 0, 0, 0x32, 0xe7, 0xcb, 0x43, 2, 0, 0, 0, 0, 0, 0, 0];

/// Where a record has its length, the length of its netid, the first padding byte, its five times, and `local`.
const LENGTH: usize = 16;
const NETID: usize = 88;
const PADDING: usize = 95;
const TIMES: [usize; 5] = [180, 192, 244, 256, 268];
const LOCAL: usize = 280;

/// A record of the capture: the writes alone differ from 0.
fn captured(device: u8, address: &[u8], busy: u32, completion: u32, duration: u32) -> Statistic<'_> {
    let nanoseconds = |count: u32| Duration::from_nanos(count.into());
    let write = Latency {
        ops_requested: 5,
        bytes_requested: 1_048_576,
        ops_completed: 5,
        bytes_completed: 1_048_576,
        bytes_not_delivered: 0,
        busy: nanoseconds(busy),
        completion: nanoseconds(completion),
    };
    Statistic {
        offset: 0,
        length: u64::MAX,
        stateid: STATEID,
        read: IoInfo::default(),
        write: IoInfo { count: 5, bytes: 1_048_576 },
        device: DeviceId([1, 0, 0, 0, 0, 0, 0, 0, device, 0, 0, 0, 0, 0, 0, 0]),
        update: LayoutUpdate {
            netid: b"tcp",
            address,
            filehandle: &FILEHANDLE,
            read: Latency::default(),
            write,
            duration: nanoseconds(duration),
            local: false,
        },
    }
}

fn both_captured() -> [Statistic<'static>; 2] {
    [
        captured(1, b"10.99.0.2.8.1", 164_940_211, 617_755_380, 183_650_370),
        captured(0, b"10.99.0.1.8.1", 158_507_972, 591_605_602, 184_105_126),
    ]
}

fn reports(count: usize, errors: usize) -> Vec<Report> {
    let error = IoError { device: DeviceId([200; 16]), status: 28, operation: Operation::Write };
    vec![Report { offset: 7, length: 9, stateid: [3; 16], errors: vec![error; errors] }; count]
}

/// The captured body with other bytes at an offset.
fn with(at: usize, bytes: &[u8]) -> Vec<u8> {
    let mut body = CAPTURED.to_vec();
    body[at..at + bytes.len()].copy_from_slice(bytes);
    body
}

#[test]
fn statistics_are_what_the_dissector_read() {
    let read = Statistics::read(CAPTURED).expect("a captured return");
    assert_eq!(read.iter().collect::<Vec<_>>(), both_captured());
    assert_eq!(read_reports(CAPTURED), Ok(Vec::new()));
    let mut out = [165; LONGEST_RETURN];
    assert_eq!(write_return(&[], &both_captured(), &mut out), Ok(CAPTURED.len()));
    assert_eq!(out[..CAPTURED.len()], *CAPTURED);
    assert!(out[CAPTURED.len()..].iter().all(|&byte| byte == 165), "bytes behind the body stay");
}

/// The body of what was read in a body, which is the same again.
fn rewritten(body: &[u8]) -> (Vec<u8>, usize) {
    let reports = read_reports(body).expect("reports");
    let statistics = Statistics::read(body).expect("statistics");
    let records: Vec<_> = statistics.iter().collect();
    let mut out = vec![0; LONGEST_RETURN];
    let length = write_return(&reports, &records, &mut out).expect("what was read");
    out.truncate(length);
    (out, records.len())
}

#[test]
fn every_captured_return_is_written_as_it_was() {
    let captures = Path::new(env!("CARGO_MANIFEST_DIR")).join("../captures");
    let (mut files, mut records) = (0, 0);
    for folder in ["stock", "patched-server"] {
        for file in captures.join(folder).read_dir().expect("captures") {
            let path = file.expect("a file").path();
            if path.to_string_lossy().contains("_lr") {
                let body = std::fs::read(&path).expect("a body");
                let (again, count) = rewritten(&body);
                assert!(again == body, "{}", path.display());
                (files, records) = (files + 1, records + count);
            }
        }
    }
    assert_eq!((files, records), (15, 19));
}

#[test]
fn both_halves_are_written_and_read() {
    let body = |reports: &[Report], records: &[Statistic]| {
        let mut out = vec![0; LONGEST_RETURN];
        let length = write_return(reports, records, &mut out).expect("a body");
        out.truncate(length);
        out
    };
    // A report with two errors has 84 bytes.
    let small = body(&reports(1, 2), &both_captured());
    assert_eq!(small.len(), CAPTURED.len() + 84);
    assert_eq!(read_reports(&small), Ok(reports(1, 2)));
    assert_eq!(rewritten(&small), (small.clone(), 2));
    let mut longest = both_captured()[0];
    (longest.update.netid, longest.update.address, longest.update.filehandle) = (&[1; 8], &[2; 64], &[3; 128]);
    let large = body(&reports(8, 16), &[longest; 8]);
    assert_eq!(large.len(), LONGEST_RETURN);
    assert!(Statistics::read(&large).expect("statistics").iter().all(|record| record == longest));
    assert_eq!(rewritten(&large), (large.clone(), 8));
    let none = body(&reports(8, 16), &[]);
    assert_eq!(none.len(), LONGEST_REPORT);
    assert_eq!(Statistics::read(&none).expect("none").iter().count(), 0);
}

/// Both readers refuse a body alike.
fn is_refused(body: &[u8], refusal: Refusal) {
    assert_eq!(Statistics::read(body), Err(refusal));
    assert_eq!(read_reports(body), Err(refusal));
    assert_eq!(
        raw::read_statistics(body),
        StatisticsResult { refusal: refusal.number(), ..StatisticsResult::default() }
    );
}

#[test]
fn what_is_no_return_is_refused_by_both_readers() {
    for length in 0..CAPTURED.len() {
        is_refused(&CAPTURED[..length], Refusal::BytesRunOut);
    }
    is_refused(&[CAPTURED, &[0]].concat(), Refusal::BytesLeftOver);
    is_refused(&with(LENGTH, &[0; 8]), Refusal::RangeInvalid);
    is_refused(&with(PADDING, &[1]), Refusal::PaddingNotZero);
    is_refused(&with(LOCAL, &[0, 0, 0, 2]), Refusal::BooleanInvalid);
    is_refused(&with(4, &[0, 0, 0, 9]), Refusal::OutsideLimit);
    for length in [[0, 0, 0, 0], [0, 0, 0, 9], [255; 4]] {
        is_refused(&with(NETID, &length), Refusal::OutsideLimit);
    }
    for time in TIMES {
        is_refused(&with(time, &[0x80, 0, 0, 0, 0, 0, 0, 0]), Refusal::TimeInvalid);
        is_refused(&with(time + 8, &1_000_000_000_u32.to_be_bytes()), Refusal::TimeInvalid);
        let largest = [&(u64::MAX >> 1).to_be_bytes()[..], &999_999_999_u32.to_be_bytes()].concat();
        assert!(Statistics::read(&with(time, &largest)).is_ok());
    }
    // An error of a report in front of the records, without a status.
    let mut out = vec![0; LONGEST_RETURN];
    let length = write_return(&reports(1, 1), &both_captured(), &mut out).expect("a body");
    out[59] = 0;
    is_refused(&out[..length], Refusal::ErrorInvalid);
}

/// Refused, and every byte of the output stays.
fn is_not_written(reports: &[Report], records: &[Statistic], refusal: Refusal) {
    let mut out = [165; LONGEST_RETURN];
    assert_eq!(write_return(reports, records, &mut out), Err(refusal));
    assert_eq!(out, [165; LONGEST_RETURN]);
}

#[test]
fn counts_and_lengths_that_do_not_fit_are_refused() {
    let good = both_captured()[0];
    for too_many in [9, 10, 300] {
        is_not_written(&[], &vec![good; too_many], Refusal::OutsideLimit);
        is_not_written(&reports(too_many, 1), &[good], Refusal::OutsideLimit);
    }
    let of = |change: &dyn Fn(&mut LayoutUpdate<'static>)| {
        let mut record = good;
        change(&mut record.update);
        [good, record]
    };
    const LONG: &[u8] = &[7; 70_000];
    for length in [0, 9, 64, 70_000] {
        is_not_written(&[], &of(&|update| update.netid = &LONG[..length]), Refusal::OutsideLimit);
    }
    for length in [0, 65, 70_000] {
        is_not_written(&[], &of(&|update| update.address = &LONG[..length]), Refusal::OutsideLimit);
    }
    for length in [0, 129, 70_000] {
        is_not_written(&[], &of(&|update| update.filehandle = &LONG[..length]), Refusal::OutsideLimit);
    }
}

#[test]
fn ranges_errors_and_times_are_judged_in_writing() {
    let good = both_captured()[0];
    let no_range = Statistic { length: 0, ..good };
    is_not_written(&[], &[good, no_range], Refusal::RangeInvalid);
    is_not_written(&[], &[Statistic { offset: 2, length: u64::MAX - 1, ..good }], Refusal::RangeInvalid);
    let mut no_status = reports(1, 1);
    no_status[0].errors[0].status = 0;
    is_not_written(&no_status, &[no_range], Refusal::ErrorInvalid);
    let changes: [fn(&mut LayoutUpdate, Duration); 5] = [
        |update, time| update.read.busy = time,
        |update, time| update.read.completion = time,
        |update, time| update.write.busy = time,
        |update, time| update.write.completion = time,
        |update, time| update.duration = time,
    ];
    for change in changes {
        let mut record = good;
        change(&mut record.update, Duration::new((1 << 63) - 1, 999_999_999));
        let mut out = [0; LONGEST_RETURN];
        let length = write_return(&[], &[record], &mut out).expect("the longest time");
        assert!(Statistics::read(&out[..length]).expect("what was written").iter().eq([record]));
        change(&mut record.update, Duration::from_secs(1 << 63));
        is_not_written(&[], &[good, record], Refusal::TimeInvalid);
    }
}

/// Other nanoseconds than a duration has, another number than a boolean's, and bytes past a length.
#[test]
fn numbers_that_the_safe_types_do_not_hold() {
    let read = raw::read_statistics(CAPTURED);
    let good = Outgoing { statistic_count: read.count, statistics: read.statistics, ..Outgoing::default() };
    let written = |outgoing| {
        let mut out = [165; 600];
        let WriteResult { refusal, length } = raw::write_return(outgoing, &[], &mut out);
        (refusal, out[..length as usize].to_vec(), out[length as usize..].iter().all(|&byte| byte == 165))
    };
    let mut spare = good;
    spare.statistics[1].update.address.netid.bytes[3..].fill(255);
    spare.statistics[1].update.filehandle.bytes[20..].fill(255);
    spare.statistics[2].update.filehandle.bytes.fill(255);
    assert_eq!(written(spare), (0, CAPTURED.to_vec(), true));
    let mut time = good;
    time.statistics[1].update.read.busy.nanoseconds = 1_000_000_000;
    time.statistics[1].update.local = 2;
    assert_eq!(written(time), (28, Vec::new(), true));
    let mut local = good;
    local.statistics[1].update.local = 2;
    assert_eq!(written(local), (7, Vec::new(), true));
}

#[test]
fn an_opaque_record_keeps_the_length_of_what_it_cuts() {
    for length in [0, 1, 7, 8, 9, 200] {
        let content: Vec<u8> = (1..=length).collect();
        let record = OpaqueRecord::<8>::of(&content);
        let kept = content.len().min(8);
        assert_eq!((record.length, record.content()), (length.into(), &content[..kept]));
        assert!(record.bytes[kept..].iter().all(|&byte| byte == 0));
    }
}

#[test]
fn an_output_that_is_too_short_is_refused() {
    let mut out = vec![165; CAPTURED.len()];
    let short = CAPTURED.len() - 1;
    assert_eq!(write_return(&[], &both_captured(), &mut out[..short]), Err(Refusal::OutputTooShort));
    assert!(out.iter().all(|&byte| byte == 165));
    assert_eq!(write_return(&[], &both_captured(), &mut out), Ok(CAPTURED.len()));
    assert_eq!(out, CAPTURED);
}
