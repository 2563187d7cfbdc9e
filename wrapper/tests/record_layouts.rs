//! The records of the wrapper are laid out as those of the header, which `tests/exported/run` compares with the same file.

use basilothyn::raw::*;
use std::mem::{offset_of, size_of};

/// A line for a record: its name in the header, its size, and the offset of each field.
macro_rules! record {
    ($name:literal, $record:ty: $($shown:literal $field:ident),+) => {
        format!("\n{} {}", $name, size_of::<$record>()) + &[$(format!(" {}@{}", $shown, offset_of!($record, $field))),+].concat()
    };
}

fn layouts() -> String {
    let records = [
        record!("segment", SegmentRecord: "first" first, "last" last, "kind" kind, "slot" slot),
        record!("table", TableRecord: "read" read, "rw" rw, "read_count" read_count, "rw_count" rw_count),
        record!("event_result", EventResult: "refusal" refusal, "table" table),
        record!("locate_result", LocateResult: "refusal" refusal, "iomode" iomode, "slot" slot, "stripe" stripe, "offset" offset, "length" length, "mirrors" mirrors),
        record!("part", PartRecord: "start" start, "length" length),
        record!("summary", SummaryRecord: "unit" unit, "mirrors" mirrors, "servers" servers, "flags" flags, "hint" hint),
        record!("layout_result", LayoutResult: "refusal" refusal, "summary" summary, "starts" starts),
        record!("layout4_result", Layout4Result: "refusal" refusal, "iomode" iomode, "offset" offset, "length" length, "last" last, "body" body, "summary" summary, "starts" starts),
        record!("address", AddressRecord: "netid_class" class, "text" text),
        record!("version", VersionRecord: "version" version, "minor" minor, "rsize" rsize, "wsize" wsize, "tight" tight),
        record!("device_result", DeviceResult: "refusal" refusal, "address_count" address_count, "version_count" version_count, "addresses" addresses, "versions" versions),
        record!("bind_result", BindResult: "refusal" refusal, "entry" entry, "version" version, "filehandle" filehandle, "stateid" stateid, "user" user, "group" group),
        record!("report_head", ReportHead: "offset" offset, "length" length, "stateid" stateid, "errors" errors),
        record!("reports_result", ReportsResult: "refusal" refusal, "count" count, "heads" heads, "errors_at" errors_at),
        record!("error_result", ErrorResult: "refusal" refusal, "device" device, "status" status, "operation" operation),
        record!("report_heads", ReportHeads: "heads" heads),
        record!("error", ErrorRecord: "device" device, "status" status, "operation" operation),
        record!("write_result", WriteResult: "refusal" refusal, "length" length),
    ];
    records.concat() + &layouts_of_statistics() + "\n"
}

fn layouts_of_statistics() -> String {
    let records = [
        record!("time", TimeRecord: "seconds" seconds, "nanoseconds" nanoseconds),
        record!("io_info", IoInfoRecord: "count" count, "bytes" bytes),
        record!("latency", LatencyRecord: "ops_requested" ops_requested, "bytes_requested" bytes_requested,
            "ops_completed" ops_completed, "bytes_completed" bytes_completed,
            "bytes_not_delivered" bytes_not_delivered, "busy" busy, "completion" completion),
        record!("netid", NetidRecord: "length" length, "bytes" bytes),
        record!("address_text", AddressTextRecord: "length" length, "bytes" bytes),
        record!("filehandle", FilehandleRecord: "length" length, "bytes" bytes),
        record!("netaddr", NetaddrRecord: "netid" netid, "text" text),
        record!("layout_update", LayoutUpdateRecord: "address" address, "filehandle" filehandle, "read" read,
            "write" write, "duration" duration, "local" local),
        record!("statistic", StatisticRecord: "offset" offset, "length" length, "stateid" stateid, "read" read,
            "write" write, "device" device, "update" update),
        record!("statistics_result", StatisticsResult: "refusal" refusal, "count" count, "statistics" statistics),
        record!("outgoing", Outgoing: "count" count, "heads" heads, "statistic_count" statistic_count,
            "statistics" statistics),
    ];
    records.concat()
}

#[test]
fn records_are_laid_out_as_the_headers() {
    assert_eq!(layouts(), include_str!("../../tests/exported/record_layouts"));
}
