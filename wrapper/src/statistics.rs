//! I/O statistics, for LAYOUTRETURN: the structures of RFC 8435, section 9.2. Counters are cumulative: they are not set
//! back to 0 when they are sent.

use crate::device::DeviceId;
use crate::raw::{self, count, IoInfoRecord, LatencyRecord, LayoutUpdateRecord, NetaddrRecord, OpaqueRecord};
use crate::raw::{Outgoing, StatisticRecord, TimeRecord, STATISTICS};
use crate::refusal::{accepted, Refusal};
use crate::report::{errors, heads, Report};
use std::time::Duration;

/// An output of so many bytes is enough for any reports and statistics.
pub const LONGEST_RETURN: usize = 6_856;

/// `io_info4`
#[derive(Clone, Copy, Debug, Default, PartialEq, Eq, Hash)]
pub struct IoInfo {
    /// How many I/Os of contiguous bytes there were in the range.
    pub count: u64,
    /// How many bytes they transferred.
    pub bytes: u64,
}

/// `ff_io_latency4`. A duration of 2^63 seconds or more is refused.
#[derive(Clone, Copy, Debug, Default, PartialEq, Eq, Hash)]
pub struct Latency {
    /// What the client asked for.
    pub ops_requested: u64,
    pub bytes_requested: u64,
    /// What was done.
    pub ops_completed: u64,
    pub bytes_completed: u64,
    /// What was asked for and, for an error, not delivered.
    pub bytes_not_delivered: u64,
    /// How long calls were under way.
    pub busy: Duration,
    /// The sum of the round trips of the calls that ended.
    pub completion: Duration,
}

/// `ff_layoutupdate4`
#[derive(Clone, Copy, Debug, Default, PartialEq, Eq, Hash)]
pub struct LayoutUpdate<'a> {
    /// The netid and the universal address that the client is connected to, of 1 to 8 and 1 to 64 bytes.
    pub netid: &'a [u8],
    pub address: &'a [u8],
    /// The filehandle that was used, of 1 to 128 bytes.
    pub filehandle: &'a [u8],
    /// Of READ.
    pub read: Latency,
    /// Of WRITE and COMMIT.
    pub write: Latency,
    /// The time over which the statistics were collected.
    pub duration: Duration,
    /// Whether the client's cache served the I/O.
    pub local: bool,
}

/// `ff_iostats4`
#[derive(Clone, Copy, Debug, PartialEq, Eq, Hash)]
pub struct Statistic<'a> {
    pub offset: u64,
    /// 2^64 - 1 means through the last byte.
    pub length: u64,
    pub stateid: [u8; 16],
    pub read: IoInfo,
    pub write: IoInfo,
    pub device: DeviceId,
    pub update: LayoutUpdate<'a>,
}

/// The statistics in an `ff_layoutreturn4` body.
#[derive(Clone, Debug, PartialEq, Eq)]
pub struct Statistics {
    records: Vec<StatisticRecord>,
}

impl Statistics {
    /// The body's reports are judged too: it is refused as `read_reports` refuses it.
    pub fn read(body: &[u8]) -> Result<Self, Refusal> {
        let read = raw::read_statistics(body);
        accepted(read.refusal)?;
        Ok(Statistics { records: read.statistics[..read.count as usize].to_vec() })
    }

    /// The records in the body's order.
    pub fn iter(&self) -> impl Iterator<Item = Statistic<'_>> {
        self.records.iter().map(Statistic::of)
    }
}

/// Writes reports and statistics as an `ff_layoutreturn4` body to the front of an output, and answers its length. There
/// are at most 8 of each.
pub fn write_return(reports: &[Report], statistics: &[Statistic], out: &mut [u8]) -> Result<usize, Refusal> {
    // Of more records than there may be only the first ones: the core refuses their number.
    let mut records = [StatisticRecord::default(); STATISTICS];
    records.iter_mut().zip(statistics).for_each(|(record, statistic)| *record = statistic.record());
    let outgoing = Outgoing {
        count: count(reports.len()),
        heads: heads(reports),
        statistic_count: count(statistics.len()),
        statistics: records,
    };
    let written = raw::write_return(outgoing, &errors(reports), out);
    accepted(written.refusal)?;
    Ok(written.length as usize)
}

impl<'a> Statistic<'a> {
    fn of(record: &'a StatisticRecord) -> Self {
        let StatisticRecord { offset, length, stateid, read, write, device, ref update } = *record;
        Statistic {
            offset,
            length,
            stateid,
            read: IoInfo::of(read),
            write: IoInfo::of(write),
            device: DeviceId(device),
            update: LayoutUpdate::of(update),
        }
    }

    fn record(&self) -> StatisticRecord {
        let Statistic { offset, length, stateid, read, write, device, ref update } = *self;
        StatisticRecord {
            offset,
            length,
            stateid,
            read: read.record(),
            write: write.record(),
            device: device.0,
            update: update.record(),
        }
    }
}

impl<'a> LayoutUpdate<'a> {
    fn of(record: &'a LayoutUpdateRecord) -> Self {
        LayoutUpdate {
            netid: record.address.netid.content(),
            address: record.address.text.content(),
            filehandle: record.filehandle.content(),
            read: Latency::of(record.read),
            write: Latency::of(record.write),
            duration: duration(record.duration),
            local: record.local == 1,
        }
    }

    fn record(&self) -> LayoutUpdateRecord {
        LayoutUpdateRecord {
            address: NetaddrRecord { netid: OpaqueRecord::of(self.netid), text: OpaqueRecord::of(self.address) },
            filehandle: OpaqueRecord::of(self.filehandle),
            read: self.read.record(),
            write: self.write.record(),
            duration: time(self.duration),
            local: self.local.into(),
        }
    }
}

impl Latency {
    fn of(record: LatencyRecord) -> Self {
        Latency {
            ops_requested: record.ops_requested,
            bytes_requested: record.bytes_requested,
            ops_completed: record.ops_completed,
            bytes_completed: record.bytes_completed,
            bytes_not_delivered: record.bytes_not_delivered,
            busy: duration(record.busy),
            completion: duration(record.completion),
        }
    }

    fn record(&self) -> LatencyRecord {
        LatencyRecord {
            ops_requested: self.ops_requested,
            bytes_requested: self.bytes_requested,
            ops_completed: self.ops_completed,
            bytes_completed: self.bytes_completed,
            bytes_not_delivered: self.bytes_not_delivered,
            busy: time(self.busy),
            completion: time(self.completion),
        }
    }
}

impl IoInfo {
    fn of(record: IoInfoRecord) -> Self {
        IoInfo { count: record.count, bytes: record.bytes }
    }

    fn record(self) -> IoInfoRecord {
        IoInfoRecord { count: self.count, bytes: self.bytes }
    }
}

/// A time that the core accepted, which has less than a second in its nanoseconds.
fn duration(record: TimeRecord) -> Duration {
    Duration::new(record.seconds, record.nanoseconds)
}

fn time(duration: Duration) -> TimeRecord {
    TimeRecord { seconds: duration.as_secs(), nanoseconds: duration.subsec_nanos() }
}
