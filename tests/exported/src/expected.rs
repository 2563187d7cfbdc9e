//! What the independent implementation answers for a body, as the records that the exported functions give.

use basilothyn::raw::*;
use independent::binding::{Binding, Identity};
use independent::device::{Device, NetidClass, VersionEntry};
use independent::layout::LayoutSummary;
use independent::layout4::{Layout4, BODY_IN_LAYOUT4};
use independent::refusal::Refusal;
use independent::report::{self, LayoutReturn};
use independent::statistics::{IoInfo, Latency, OpaqueField, Statistic, Time};
use independent::xdr::{Cursor, Extent};

fn number(refusal: Refusal) -> u32 {
    u32::from(refusal.number())
}

fn part(extent: Extent) -> PartRecord {
    PartRecord { start: extent.start, length: extent.length }
}

fn summary(s: &LayoutSummary) -> SummaryRecord {
    SummaryRecord { unit: s.unit, mirrors: s.mirrors, servers: s.servers, flags: s.flags, hint: s.hint }
}

pub fn layout(read: Result<LayoutSummary, Refusal>) -> LayoutResult {
    match read {
        Ok(s) => LayoutResult { refusal: 0, summary: summary(&s), starts: s.starts },
        Err(refusal) => LayoutResult { refusal: number(refusal), summary: SummaryRecord::default(), starts: [0; 128] },
    }
}

pub fn layout4(read: Result<Layout4, Refusal>) -> Layout4Result {
    let (refusal, l) = match read {
        Ok(l) => (0, Some(l)),
        Err(refusal) => (number(refusal), None),
    };
    let last = |l: &Layout4| if l.length == u64::MAX { u64::MAX } else { l.offset + (l.length - 1) };
    Layout4Result {
        refusal,
        iomode: l.as_ref().map_or(0, |l| l.iomode),
        offset: l.as_ref().map_or(0, |l| l.offset),
        length: l.as_ref().map_or(0, |l| l.length),
        last: l.as_ref().map_or(0, last),
        body: l
            .as_ref()
            .map_or(PartRecord::default(), |l| PartRecord { start: BODY_IN_LAYOUT4, length: l.body_length }),
        summary: l.as_ref().map_or(SummaryRecord::default(), |l| summary(&l.summary)),
        starts: l.as_ref().map_or([0; 128], |l| l.summary.starts),
    }
}

fn class(class: NetidClass) -> u32 {
    match class {
        NetidClass::Other => 0,
        NetidClass::Tcp => 1,
        NetidClass::Tcp6 => 2,
        NetidClass::Udp => 3,
        NetidClass::Udp6 => 4,
        NetidClass::Rdma => 5,
        NetidClass::Rdma6 => 6,
    }
}

fn version(v: &VersionEntry) -> VersionRecord {
    VersionRecord { version: v.version, minor: v.minor, rsize: v.rsize, wsize: v.wsize, tight: u32::from(v.tight) }
}

pub fn device(read: Result<Device, Refusal>) -> DeviceResult {
    let mut result = DeviceResult::default();
    match read {
        Ok(d) => {
            result.address_count = d.addresses().len() as u32;
            result.version_count = d.versions().len() as u32;
            for (place, a) in result.addresses.iter_mut().zip(d.addresses()) {
                *place = AddressRecord { class: class(a.class), text: part(a.text) };
            }
            for (place, v) in result.versions.iter_mut().zip(d.versions()) {
                *place = version(v);
            }
        }
        Err(refusal) => result.refusal = number(refusal),
    }
    result
}

pub fn binding(bound: Result<Binding, Refusal>) -> BindResult {
    let mut result = BindResult::default();
    match bound {
        Ok(b) => {
            result.entry = b.entry_number as u32;
            result.version = version(&b.entry);
            result.filehandle = part(b.filehandle);
            match b.identity {
                Identity::Tight { stateid } => result.stateid = stateid.start,
                Identity::Loose { user, group } => (result.user, result.group) = (part(user), part(group)),
            }
        }
        Err(refusal) => result.refusal = number(refusal),
    }
    result
}

pub fn head(h: &report::ReportHead) -> ReportHead {
    ReportHead { offset: h.offset, length: h.length, stateid: h.stateid, errors: h.error_count }
}

/// The errors of a report are after its head, which has 36 bytes, 24 bytes each.
pub fn reports(read: Result<LayoutReturn, Refusal>) -> ReportsResult {
    let mut result = ReportsResult::default();
    match read {
        Ok(r) => {
            result.count = r.heads.len() as u32;
            let mut at = 4;
            for (i, h) in r.heads.iter().enumerate() {
                result.heads[i] = head(h);
                result.errors_at[i] = at + 36;
                at += 36 + 24 * h.error_count as usize;
            }
        }
        Err(refusal) => result.refusal = number(refusal),
    }
    result
}

pub fn statistics(read: Result<LayoutReturn, Refusal>) -> StatisticsResult {
    let mut result = StatisticsResult::default();
    match read {
        Ok(r) => {
            result.count = r.statistics.len() as u32;
            for (place, s) in result.statistics.iter_mut().zip(&r.statistics) {
                *place = statistic(s);
            }
        }
        Err(refusal) => result.refusal = number(refusal),
    }
    result
}

pub fn statistic(s: &Statistic) -> StatisticRecord {
    StatisticRecord {
        offset: s.offset,
        length: s.length,
        stateid: s.stateid,
        read: io_info(s.read),
        write: io_info(s.write),
        device: s.device_id,
        update: LayoutUpdateRecord {
            address: NetaddrRecord { netid: opaque(s.netid), text: opaque(s.address) },
            filehandle: opaque(s.filehandle),
            read: latency(&s.read_latency),
            write: latency(&s.write_latency),
            duration: time(s.duration),
            local: s.local,
        },
    }
}

fn io_info(info: IoInfo) -> IoInfoRecord {
    IoInfoRecord { count: info.count, bytes: info.bytes }
}

/// Spare bytes and all.
fn opaque<const LONGEST: usize>(field: OpaqueField<LONGEST>) -> OpaqueRecord<LONGEST> {
    OpaqueRecord { length: field.length, bytes: field.bytes }
}

fn latency(l: &Latency) -> LatencyRecord {
    LatencyRecord {
        ops_requested: l.ops_requested,
        bytes_requested: l.bytes_requested,
        ops_completed: l.ops_completed,
        bytes_completed: l.bytes_completed,
        bytes_not_delivered: l.bytes_not_delivered,
        busy: time(l.total_busy_time),
        completion: time(l.aggregate_completion_time),
    }
}

/// Negative seconds are the number that their 8 bytes are.
fn time(t: Time) -> TimeRecord {
    TimeRecord { seconds: t.seconds as u64, nanoseconds: t.nanoseconds }
}

/// The error at an offset of a body: "device id, status, operation".
pub fn error(body: &[u8], at: usize) -> ErrorResult {
    match report::read_error(&mut Cursor::starting_at(body, at)) {
        Ok(e) => ErrorResult { refusal: 0, device: at, status: e.status, operation: e.operation },
        Err(refusal) => ErrorResult { refusal: number(refusal), ..ErrorResult::default() },
    }
}

pub fn error_record(e: &report::DeviceError) -> ErrorRecord {
    ErrorRecord { device: e.device_id, status: e.status, operation: e.operation }
}

pub fn written(length: Result<usize, Refusal>) -> WriteResult {
    match length {
        Ok(length) => WriteResult { refusal: 0, length: length as u64 },
        Err(refusal) => WriteResult { refusal: number(refusal), length: 0 },
    }
}
