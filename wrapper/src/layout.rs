//! Layouts, as they came in the reply to LAYOUTGET.

use crate::device::{id_at, DeviceId};
use crate::numbers::{answered, Iomode, MirrorNumber, StripeNumber};
use crate::raw::{self, SummaryRecord, SERVERS};
use crate::refusal::{accepted, Refusal};

/// The flags of a layout, by their names in RFC 8435. Lookups obey the last two.
#[derive(Clone, Copy, Debug, PartialEq, Eq, Hash)]
pub struct Flags(u32);

impl Flags {
    pub fn no_layoutcommit(self) -> bool {
        self.0 & 1 != 0
    }

    pub fn no_io_thru_mds(self) -> bool {
        self.0 & 2 != 0
    }

    pub fn no_read_io(self) -> bool {
        self.0 & 4 != 0
    }

    pub fn write_one_mirror(self) -> bool {
        self.0 & 8 != 0
    }
}

/// A layout body (`ff_layout4`) that was read.
#[derive(Clone, Copy, Debug, PartialEq, Eq)]
pub struct Layout<'a> {
    pub(crate) body: &'a [u8],
    summary: SummaryRecord,
    starts: [u16; raw::MIRRORS * SERVERS],
}

impl<'a> Layout<'a> {
    pub fn read(body: &'a [u8]) -> Result<Self, Refusal> {
        let read = raw::read_layout(body);
        accepted(read.refusal)?;
        Ok(Layout { body, summary: read.summary, starts: read.starts })
    }

    /// The body's bytes.
    pub fn body(&self) -> &'a [u8] {
        self.body
    }

    /// The stripe unit in bytes; 0 with one data server in each mirror.
    pub fn unit(&self) -> u64 {
        self.summary.unit
    }

    /// How many mirrors there are.
    pub fn mirror_count(&self) -> u32 {
        self.summary.mirrors
    }

    /// How many data servers each mirror has.
    pub fn server_count(&self) -> u32 {
        self.summary.servers
    }

    pub fn mirrors(&self) -> impl Iterator<Item = MirrorNumber> {
        (0..self.summary.mirrors).map(MirrorNumber)
    }

    pub fn stripes(&self) -> impl Iterator<Item = StripeNumber> {
        (0..self.summary.servers).map(StripeNumber)
    }

    pub fn flags(&self) -> Flags {
        Flags(self.summary.flags)
    }

    /// How often statistics are wanted, in seconds.
    pub fn statistics_hint(&self) -> u32 {
        self.summary.hint
    }

    /// The device id of a data server; `None` beyond the layout.
    pub fn device_id(&self, mirror: MirrorNumber, stripe: StripeNumber) -> Option<DeviceId> {
        self.start(mirror, stripe).map(|start| id_at(self.body, start))
    }

    /// What the metadata server thinks of a data server: more is better. `None` beyond the layout.
    pub fn efficiency(&self, mirror: MirrorNumber, stripe: StripeNumber) -> Option<u32> {
        let at = self.start(mirror, stripe)? + 16;
        self.body[at..].first_chunk().map(|bytes| u32::from_be_bytes(*bytes))
    }

    fn start(&self, mirror: MirrorNumber, stripe: StripeNumber) -> Option<usize> {
        let within = mirror.0 < self.summary.mirrors && stripe.0 < self.summary.servers;
        within.then(|| self.starts[mirror.0 as usize * SERVERS + stripe.0 as usize].into())
    }
}

/// A `layout4` that was read, and not granted.
#[derive(Clone, Copy, Debug, PartialEq, Eq)]
pub struct Layout4<'a> {
    pub offset: u64,
    /// As on the wire: 2^64 - 1 means through the last byte.
    pub length: u64,
    /// The last byte of the range.
    pub last: u64,
    pub iomode: Iomode,
    pub layout: Layout<'a>,
}

impl<'a> Layout4<'a> {
    pub fn read(bytes: &'a [u8]) -> Result<Self, Refusal> {
        let read = raw::read_layout4(bytes);
        accepted(read.refusal)?;
        let body = &bytes[read.body.start..][..read.body.length];
        let layout = Layout { body, summary: read.summary, starts: read.starts };
        let iomode = answered(read.iomode);
        Ok(Layout4 { offset: read.offset, length: read.length, last: read.last, iomode, layout })
    }
}
