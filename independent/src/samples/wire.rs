//! Wire bodies being made, with a mark at each item, so that a single item can
//! be corrupted or the body be cut in front of it.

/// The variable opaque and string items.
#[derive(Clone, Copy, Debug, PartialEq, Eq, PartialOrd, Ord)]
pub enum Opaque {
    Filehandle,
    User,
    Group,
    Netid,
    Address,
}

/// The items of all bodies.
#[derive(Clone, Copy, Debug, PartialEq, Eq)]
pub enum Item {
    Unit,
    MirrorCount,
    ServerCount,
    DeviceId,
    Efficiency,
    Stateid,
    FilehandleCount,
    Flags,
    Hint,
    AddressCount,
    VersionCount,
    Version,
    Minor,
    Rsize,
    Wsize,
    Tight,
    ReportCount,
    Offset,
    Length,
    ErrorCount,
    Status,
    Operation,
    StatisticsCount,
    StatisticOffset,
    StatisticLength,
    StatisticStateid,
    /// A count or the bytes of reads or writes: four a record.
    Transfer,
    StatisticDeviceId,
    /// Ten a record.
    LatencyNumber,
    /// Five a record, as the nanoseconds.
    Seconds,
    Nanoseconds,
    Local,
    LengthOf(Opaque),
    ContentOf(Opaque),
    PaddingOf(Opaque),
}

/// A body and the offsets of its items.
#[derive(Clone, Debug, Default, PartialEq, Eq)]
pub struct Wire {
    pub bytes: Vec<u8>,
    marks: Vec<(Item, usize)>,
}

impl Wire {
    pub fn uint(&mut self, item: Item, value: u32) {
        self.fixed(item, &value.to_be_bytes());
    }

    pub fn uhyper(&mut self, item: Item, value: u64) {
        self.fixed(item, &value.to_be_bytes());
    }

    pub fn fixed(&mut self, item: Item, content: &[u8]) {
        self.marks.push((item, self.bytes.len()));
        self.bytes.extend(content);
    }

    /// Length, content and padding; an empty one of these has no mark.
    pub fn opaque(&mut self, opaque: Opaque, content: &[u8]) {
        self.uint(Item::LengthOf(opaque), content.len() as u32);
        if !content.is_empty() {
            self.fixed(Item::ContentOf(opaque), content);
        }
        let padding = content.len().next_multiple_of(4) - content.len();
        if padding > 0 {
            self.fixed(Item::PaddingOf(opaque), &[0; 3][..padding]);
        }
    }

    /// The offsets of an item, in the body's order.
    pub fn offsets(&self, item: Item) -> Vec<usize> {
        let of_item = self.marks.iter().filter(|mark| mark.0 == item);
        of_item.map(|mark| mark.1).collect()
    }

    /// Where the body can be cut in front of an item.
    pub fn item_offsets(&self) -> Vec<usize> {
        self.marks.iter().map(|mark| mark.1).collect()
    }

    /// The offsets of all padding bytes.
    pub fn padding_offsets(&self) -> Vec<usize> {
        let paddings = self.marks.iter().filter(|mark| matches!(mark.0, Item::PaddingOf(_)));
        paddings.flat_map(|mark| mark.1..mark.1.next_multiple_of(4)).collect()
    }

    /// Other bytes, corrupted ones, under the same marks.
    pub fn holding(&self, bytes: Vec<u8>) -> Wire {
        Wire { bytes, marks: self.marks.clone() }
    }

    /// A copy in which a number of 4 bytes is another one.
    pub fn with_uint(&self, item: Item, which: usize, value: u32) -> Vec<u8> {
        overwritten(&self.bytes, self.offsets(item)[which], &value.to_be_bytes())
    }

    /// A copy in which a number of 8 bytes is another one.
    pub fn with_uhyper(&self, item: Item, which: usize, value: u64) -> Vec<u8> {
        overwritten(&self.bytes, self.offsets(item)[which], &value.to_be_bytes())
    }
}

/// A copy in which some bytes are others.
pub fn overwritten(bytes: &[u8], place: usize, new: &[u8]) -> Vec<u8> {
    let mut copy = bytes.to_vec();
    copy[place..place + new.len()].copy_from_slice(new);
    copy
}

/// A copy with more bytes at its end.
pub fn extended(bytes: &[u8], more: &[u8]) -> Vec<u8> {
    [bytes, more].concat()
}

/// Bytes that differ from offset to offset and never are 0, so that a mix-up of
/// two offsets shows and content is not taken for padding.
pub fn pattern(first: u8, length: usize) -> Vec<u8> {
    let byte_at = |place: usize| ((usize::from(first) * 37 + place * 11) % 255) as u8 + 1;
    (0..length).map(byte_at).collect()
}
