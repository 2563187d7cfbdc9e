//! Bodies, bindings and reports.

use crate::bodies::{one_mirror, striped, three_mirrors, DEVICE};
use crate::race::{Race, Row};
use crate::{rpcgen, tuned};
use basilothyn::raw::{self, ErrorRecord, ReportHeads};
use independent::binding::{bind, BindRequest};
use independent::device::read_device_body;
use independent::layout::read_layout_body;
use independent::report::{read_layout_return, write_reports, DeviceError, ReportHead};
use independent::samples::bodies::{encode_reports, ReportPlan};
use std::hint::black_box;

/// The lengths and rows of the three layout bodies.
pub fn layouts() -> Vec<(usize, Row)> {
    [one_mirror(), three_mirrors(), &striped(3, 8, 0, 0)].map(|body| (body.len(), layout(body))).into()
}

fn layout(body: &[u8]) -> Row {
    let (core, plain) = (raw::read_layout(body), read_layout_body(body).expect("a good body"));
    let fast = tuned::layout::read_layout(body).expect("a good body");
    assert_eq!((core.refusal, core.starts, fast.starts), (0, plain.starts, plain.starts));
    assert!(rpcgen::read_layout(body));
    let name = format!("layout body of {} bytes", body.len());
    Race::new(&name, || raw::read_layout(black_box(body)), || read_layout_body(black_box(body)))
        .tuned(|| tuned::layout::read_layout(black_box(body)))
        .rpcgen(|| rpcgen::read_layout(black_box(body)))
        .run()
}

pub fn device() -> Row {
    assert!(raw::read_device(DEVICE).refusal == 0 && read_device_body(DEVICE).is_ok() && rpcgen::read_device(DEVICE));
    let name = format!("device body of {} bytes", DEVICE.len());
    Race::new(&name, || raw::read_device(black_box(DEVICE)), || read_device_body(black_box(DEVICE)))
        .rpcgen(|| rpcgen::read_device(black_box(DEVICE)))
        .run()
}

pub fn binding() -> Row {
    let layout = three_mirrors();
    let start = usize::from(raw::read_layout(layout).starts[0]);
    let device_id: [u8; 16] = layout[start..start + 16].try_into().expect("16 bytes");
    let request = BindRequest {
        mirror: 0,
        stripe: 0,
        supported_versions: 15,
        device_id,
        layout_body: layout,
        device_body: DEVICE,
    };
    assert!(bind(&request).is_ok() && raw::bind(layout, 0, 0, DEVICE, &device_id, 15).refusal == 0);
    let core = || raw::bind(black_box(layout), 0, 0, black_box(DEVICE), &device_id, 15);
    Race::new("binding, 3 mirrors", core, || bind(black_box(&request))).run()
}

/// Eight reports of 16 errors, the most that a body has.
fn report_body() -> Vec<u8> {
    let plans: Vec<ReportPlan> = (0..8).map(|number| ReportPlan::with_errors(number, 16)).collect();
    encode_reports(&plans, 0).bytes
}

pub fn reports_read() -> Row {
    let body = report_body();
    assert!(raw::read_reports(&body).refusal == 0 && read_layout_return(&body).is_ok() && rpcgen::read_reports(&body));
    let name = format!("report body of {} bytes, read", body.len());
    Race::new(&name, || raw::read_reports(black_box(&body)), || read_layout_return(black_box(&body)))
        .rpcgen(|| rpcgen::read_reports(black_box(&body)))
        .run()
}

pub fn reports_written() -> Row {
    let body = report_body();
    let read = read_layout_return(&body).expect("a good body");
    let heads: [ReportHead; 8] = read.heads.try_into().expect("eight reports");
    let head = |h: &ReportHead| raw::ReportHead {
        offset: h.offset,
        length: h.length,
        stateid: h.stateid,
        errors: h.error_count,
    };
    let records = ReportHeads { heads: heads.each_ref().map(head) };
    let record = |e: &DeviceError| ErrorRecord { device: e.device_id, status: e.status, operation: e.operation };
    let errors: Vec<ErrorRecord> = read.errors.iter().map(record).collect();
    let mut outputs = [(); 3].map(|()| vec![0; body.len()]);
    let [ours, plain, generated] = &mut outputs;
    raw::write_report(8, records, &errors, ours);
    assert!(write_reports(8, &heads, &read.errors, plain) == Ok(body.len()) && rpcgen::keep_reports(&body));
    assert!(
        *ours == body
            && *plain == body
            && (!cfg!(rpcgen) || rpcgen::write_reports(generated) == body.len() && *generated == body)
    );
    let core = || raw::write_report(8, records, black_box(&errors), ours).length;
    Race::new("the same, written", core, || write_reports(8, &heads, black_box(&read.errors), plain))
        .rpcgen(|| rpcgen::write_reports(generated))
        .run()
}
