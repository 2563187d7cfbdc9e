//! Error reports, written and read, and the errors of a body one by one. The numbers are those of RFC 7530: NFS4ERR_IO
//! is 5, NFS4ERR_NXIO 6, NFS4ERR_NOSPC 28; the operations COMMIT 5, READ 25, WRITE 38.

use basilothyn::raw::{self, ErrorResult};
use basilothyn::{
    read_error, read_reports, write_reports, DeviceId, IoError, Operation, Refusal, Report, LONGEST_REPORT,
};

fn error(device: u8, status: u32, operation: Operation) -> IoError {
    IoError { device: DeviceId([device; 16]), status, operation }
}

/// Reports of one range, each with as many errors as it is told.
fn reports(errors: &[usize]) -> Vec<Report> {
    let report = |&count| Report {
        offset: 7,
        length: 9,
        stateid: [3; 16],
        errors: vec![error(200, 28, Operation::Write); count],
    };
    errors.iter().map(report).collect()
}

/// A body of one report with one error: 4 + 36 bytes, the error at 40, 4 bytes of statistics.
fn one_error() -> Vec<u8> {
    let mut body = vec![0, 0, 0, 1];
    body.extend([0, 0, 0, 0, 0, 0, 0, 7, 0, 0, 0, 0, 0, 0, 0, 9]);
    body.extend([3; 16]);
    body.extend([0, 0, 0, 1]);
    body.extend([200; 16]);
    body.extend([0, 0, 0, 28, 0, 0, 0, 38]);
    body.extend([0, 0, 0, 0]);
    body
}

#[test]
fn an_error_is_its_device_status_and_operation() {
    let body = one_error();
    assert_eq!(raw::read_error(&body, 40), ErrorResult { refusal: 0, device: 40, status: 28, operation: 38 });
    assert_eq!(read_error(&body, 40), Ok(error(200, 28, Operation::Write)));
    assert_eq!(read_reports(&body), Ok(reports(&[1])));
}

#[test]
fn what_is_no_error_is_refused_and_gives_no_number() {
    let refused = |number| ErrorResult { refusal: number, device: 0, status: 0, operation: 0 };
    let body = one_error();
    for length in 0..64 {
        assert_eq!(raw::read_error(&body[..length], 40), refused(1), "cut to {length}");
    }
    for at in [45, 64, 68, 69, usize::MAX - 15, usize::MAX] {
        assert_eq!(raw::read_error(&body, at), refused(1), "at {at}");
    }
    let with = |at: usize, value| {
        let mut other = body.clone();
        other[at] = value;
        other
    };
    assert_eq!(raw::read_error(&with(59, 0), 40), refused(27), "a status of 0");
    for operation in [0, 4, 6, 24, 26, 37, 39] {
        assert_eq!(raw::read_error(&with(63, operation), 40), refused(27), "operation {operation}");
    }
    assert_eq!(read_error(&with(59, 0), 40), Err(Refusal::ErrorInvalid));
    assert_eq!(read_error(&body[..63], 40), Err(Refusal::BytesRunOut));
}

#[test]
fn reports_are_written_as_on_the_wire() {
    let mut out = [165; LONGEST_REPORT];
    assert_eq!(write_reports(&reports(&[1]), &mut out), Ok(68));
    assert_eq!(out[..68], one_error());
    assert!(out[68..].iter().all(|&byte| byte == 165), "bytes behind the body stay");
    assert_eq!(write_reports(&[], &mut out), Ok(8));
    assert_eq!(out[..8], [0; 8]);
    assert_eq!(read_reports(&out[..8]), Ok(Vec::new()));
}

#[test]
fn the_errors_that_were_written_are_walked() {
    let errors = vec![
        error(1, 5, Operation::Commit),
        error(2, 6, Operation::Read),
        error(3, 28, Operation::Write),
        error(4, u32::MAX, Operation::Read),
    ];
    let first = Report { offset: 0, length: u64::MAX, stateid: [9; 16], errors: errors[..3].to_vec() };
    let second = Report { offset: 4096, length: 1, stateid: [8; 16], errors: errors[3..].to_vec() };
    let written = [first, second];
    let mut out = [0; LONGEST_REPORT];
    // 4 + 36 + 3 * 24 + 36 + 24 + 4
    assert_eq!(write_reports(&written, &mut out), Ok(176));
    assert_eq!(read_reports(&out[..176]), Ok(written.to_vec()));
    let places = [40, 64, 88, 148];
    assert_eq!(places.map(|at| read_error(&out[..176], at)).to_vec(), errors.into_iter().map(Ok).collect::<Vec<_>>());
}

#[test]
fn eight_reports_of_16_errors_are_the_most() {
    let mut out = [0; LONGEST_REPORT];
    assert_eq!(write_reports(&reports(&[16; 8]), &mut out), Ok(LONGEST_REPORT));
    assert_eq!(read_reports(&out), Ok(reports(&[16; 8])));
    for too_many in [&[1; 9][..], &[17], &[0], &[16, 17], &[1; 300]] {
        assert_eq!(write_reports(&reports(too_many), &mut out), Err(Refusal::OutsideLimit));
    }
    assert_eq!(read_reports(&out), Ok(reports(&[16; 8])), "a refusal changes nothing");
}

#[test]
fn what_cannot_be_reported_is_refused() {
    let mut out = [0; 68];
    assert_eq!(write_reports(&reports(&[1]), &mut out[..67]), Err(Refusal::OutputTooShort));
    let mut wrong = reports(&[1]);
    wrong[0].errors[0].status = 0;
    assert_eq!(write_reports(&wrong, &mut out), Err(Refusal::ErrorInvalid));
    wrong[0].length = 0;
    assert_eq!(write_reports(&wrong, &mut out), Err(Refusal::RangeInvalid));
    assert_eq!(read_reports(&one_error()[..67]), Err(Refusal::BytesRunOut));
}
