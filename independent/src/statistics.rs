//! I/O statistics: the `ff_iostats4` record of RFC 8435 section 9.2, read and
//! written (C-13).

use crate::range::check_range;
use crate::refusal::Refusal;
use crate::xdr::{put, Cursor};

/// "Read and write up to 8 `ff_iostats4` records", "a count above 8 is 8".
pub const STATISTICS_LIMIT: u32 = 8;
/// The most bytes of a netid, an address and a filehandle, as 01 limits them.
pub const NETID_LIMIT: usize = 8;
pub const ADDRESS_LIMIT: usize = 64;
pub const FILEHANDLE_LIMIT: usize = 128;
/// Range, stateid, reads, writes and device id, which are in front of the netid.
const FRONT_SIZE: usize = 16 + 16 + 16 + 16 + 16;
/// Two latency blocks of five numbers and two times, the duration and `local`.
const BEHIND_SIZE: usize = 2 * (5 * 8 + 2 * 12) + 12 + 4;
/// "Nanoseconds are below 1,000,000,000"
const NANOSECONDS_A_SECOND: u32 = 1_000_000_000;

/// Opaque data of 1 to `LIMIT` bytes in a place of fixed size. The bytes past
/// the length are spare: 0 after reading, and ignored in writing. To be
/// written, the length may be any number.
#[derive(Clone, Copy, Debug, PartialEq, Eq)]
pub struct OpaqueField<const LIMIT: usize> {
    pub length: u32,
    pub bytes: [u8; LIMIT],
}

/// `nfstime4`, which here is a span of time.
#[derive(Clone, Copy, Debug, Default, PartialEq, Eq)]
pub struct Time {
    pub seconds: i64,
    pub nanoseconds: u32,
}

/// `io_info4` of RFC 7862.
#[derive(Clone, Copy, Debug, Default, PartialEq, Eq)]
pub struct IoInfo {
    pub count: u64,
    pub bytes: u64,
}

/// `ff_io_latency4`
#[derive(Clone, Copy, Debug, Default, PartialEq, Eq)]
pub struct Latency {
    pub ops_requested: u64,
    pub bytes_requested: u64,
    pub ops_completed: u64,
    pub bytes_completed: u64,
    pub bytes_not_delivered: u64,
    pub total_busy_time: Time,
    pub aggregate_completion_time: Time,
}

/// `ff_iostats4`, and in its last seven fields its `ff_layoutupdate4`.
#[derive(Clone, Copy, Debug, Default, PartialEq, Eq)]
pub struct Statistic {
    pub offset: u64,
    pub length: u64,
    pub stateid: [u8; 16],
    pub read: IoInfo,
    pub write: IoInfo,
    pub device_id: [u8; 16],
    pub netid: OpaqueField<NETID_LIMIT>,
    pub address: OpaqueField<ADDRESS_LIMIT>,
    pub filehandle: OpaqueField<FILEHANDLE_LIMIT>,
    pub read_latency: Latency,
    pub write_latency: Latency,
    pub duration: Time,
    /// A boolean as on the wire; to be written, it may be any number.
    pub local: u32,
}

impl<const LIMIT: usize> Default for OpaqueField<LIMIT> {
    fn default() -> Self {
        OpaqueField { length: 0, bytes: [0; LIMIT] }
    }
}

impl<const LIMIT: usize> OpaqueField<LIMIT> {
    /// A field of these bytes, at most `LIMIT`, with zeros behind them.
    pub fn of(content: &[u8]) -> Self {
        let mut field = OpaqueField { length: content.len() as u32, ..Self::default() };
        field.bytes[..content.len()].copy_from_slice(content);
        field
    }

    /// The bytes of a field whose length keeps the limit.
    pub fn content(&self) -> &[u8] {
        &self.bytes[..self.length as usize]
    }

    fn read(cursor: &mut Cursor) -> Result<Self, Refusal> {
        let content = cursor.opaque_content(1..=LIMIT as u32)?;
        Ok(Self::of(content))
    }

    fn check(&self) -> Result<(), Refusal> {
        if (1..=LIMIT as u32).contains(&self.length) {
            Ok(())
        } else {
            Err(Refusal::OutsideLimit)
        }
    }

    /// The length, the bytes and their padding.
    fn size(&self) -> usize {
        4 + self.content().len().next_multiple_of(4)
    }

    fn put(&self, rest: &mut &mut [u8]) {
        put(rest, &self.length.to_be_bytes());
        put(rest, self.content());
        put(rest, &[0; 3][..self.size() - 4 - self.content().len()]);
    }
}

impl Time {
    fn read(cursor: &mut Cursor) -> Result<Self, Refusal> {
        let time = Time { seconds: cursor.hyper()?, nanoseconds: cursor.uint()? };
        time.check()?;
        Ok(time)
    }

    /// "Nanoseconds are below 1,000,000,000 and seconds are signed and not
    /// negative (ours), otherwise refusal 28, judged when both parts of the
    /// time are read".
    fn check(&self) -> Result<(), Refusal> {
        if self.seconds >= 0 && self.nanoseconds < NANOSECONDS_A_SECOND {
            Ok(())
        } else {
            Err(Refusal::BadTime)
        }
    }

    fn put(&self, rest: &mut &mut [u8]) {
        put(rest, &self.seconds.to_be_bytes());
        put(rest, &self.nanoseconds.to_be_bytes());
    }
}

impl IoInfo {
    fn read(cursor: &mut Cursor) -> Result<Self, Refusal> {
        Ok(IoInfo { count: cursor.uhyper()?, bytes: cursor.uhyper()? })
    }

    fn put(&self, rest: &mut &mut [u8]) {
        put(rest, &self.count.to_be_bytes());
        put(rest, &self.bytes.to_be_bytes());
    }
}

impl Latency {
    fn read(cursor: &mut Cursor) -> Result<Self, Refusal> {
        Ok(Latency {
            ops_requested: cursor.uhyper()?,
            bytes_requested: cursor.uhyper()?,
            ops_completed: cursor.uhyper()?,
            bytes_completed: cursor.uhyper()?,
            bytes_not_delivered: cursor.uhyper()?,
            total_busy_time: Time::read(cursor)?,
            aggregate_completion_time: Time::read(cursor)?,
        })
    }

    /// The five numbers, in the order of the wire.
    pub fn numbers(&self) -> [u64; 5] {
        [self.ops_requested, self.bytes_requested, self.ops_completed, self.bytes_completed, self.bytes_not_delivered]
    }

    fn put(&self, rest: &mut &mut [u8]) {
        for number in self.numbers() {
            put(rest, &number.to_be_bytes());
        }
        self.total_busy_time.put(rest);
        self.aggregate_completion_time.put(rest);
    }
}

impl Statistic {
    /// Reads a record: "ranges, addresses and filehandles have 01's rules and
    /// limits". The range is judged when its length is read.
    pub fn read(cursor: &mut Cursor) -> Result<Self, Refusal> {
        let offset = cursor.uhyper()?;
        let length = cursor.uhyper()?;
        check_range(offset, length)?;
        Ok(Statistic {
            offset,
            length,
            stateid: cursor.fixed()?,
            read: IoInfo::read(cursor)?,
            write: IoInfo::read(cursor)?,
            device_id: cursor.fixed()?,
            netid: OpaqueField::read(cursor)?,
            address: OpaqueField::read(cursor)?,
            filehandle: OpaqueField::read(cursor)?,
            read_latency: Latency::read(cursor)?,
            write_latency: Latency::read(cursor)?,
            duration: Time::read(cursor)?,
            local: u32::from(cursor.boolean()?),
        })
    }

    /// Judges a record that is to be written, in the order in which its bytes
    /// would be read.
    pub fn check(&self) -> Result<(), Refusal> {
        check_range(self.offset, self.length)?;
        self.netid.check()?;
        self.address.check()?;
        self.filehandle.check()?;
        self.times().iter().try_for_each(Time::check)?;
        if self.local > 1 {
            return Err(Refusal::BadBoolean);
        }
        Ok(())
    }

    /// The five times, in the order of the wire.
    pub fn times(&self) -> [Time; 5] {
        let Latency { total_busy_time: read_busy, aggregate_completion_time: read_completion, .. } = self.read_latency;
        let Latency { total_busy_time: write_busy, aggregate_completion_time: write_completion, .. } =
            self.write_latency;
        [read_busy, read_completion, write_busy, write_completion, self.duration]
    }

    /// How many bytes a record has on the wire, once it is judged.
    pub fn size(&self) -> usize {
        FRONT_SIZE + self.netid.size() + self.address.size() + self.filehandle.size() + BEHIND_SIZE
    }

    /// Writes a record that is judged to the front of `rest`.
    pub fn put(&self, rest: &mut &mut [u8]) {
        put(rest, &self.offset.to_be_bytes());
        put(rest, &self.length.to_be_bytes());
        put(rest, &self.stateid);
        self.read.put(rest);
        self.write.put(rest);
        put(rest, &self.device_id);
        self.netid.put(rest);
        self.address.put(rest);
        self.filehandle.put(rest);
        self.read_latency.put(rest);
        self.write_latency.put(rest);
        self.duration.put(rest);
        put(rest, &self.local.to_be_bytes());
    }
}

#[cfg(test)]
mod record_tests;
