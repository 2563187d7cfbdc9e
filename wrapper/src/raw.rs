//! The exported functions as they are, and the records that they take and give. `include/basilothyn.h` says what each does.

/// The most segments of an iomode.
pub const SEGMENTS: usize = 32;

/// The bytes of a slot.
pub const SLOT_LENGTH: usize = 4_096;

/// The bytes of a store.
pub const STORE_LENGTH: usize = 32_768;

/// The most mirrors of a layout.
pub const MIRRORS: usize = 8;

/// The most data servers of a mirror.
pub const SERVERS: usize = 16;

/// The most error reports of a layout return.
pub const REPORTS: usize = 8;

/// The most records of statistics of a layout return.
pub const STATISTICS: usize = 8;

/// Kind 0 is none, 1 granted, 2 recalled; with none the slot is 0.
#[repr(C)]
#[derive(Clone, Copy, Debug, Default, PartialEq, Eq)]
pub struct SegmentRecord {
    pub first: u64,
    pub last: u64,
    pub kind: u32,
    pub slot: u32,
}

#[repr(C)]
#[derive(Clone, Copy, Debug, Default, PartialEq, Eq)]
pub struct TableRecord {
    pub read: [SegmentRecord; SEGMENTS],
    pub rw: [SegmentRecord; SEGMENTS],
    pub read_count: u64,
    pub rw_count: u64,
}

#[repr(C)]
#[derive(Clone, Copy, Debug, PartialEq, Eq)]
pub struct EventResult {
    pub refusal: u32,
    pub table: TableRecord,
}

#[repr(C)]
#[derive(Clone, Copy, Debug, PartialEq, Eq)]
pub struct LocateResult {
    pub refusal: u32,
    pub iomode: u32,
    pub slot: u32,
    pub stripe: u32,
    pub offset: u64,
    pub length: u64,
    pub mirrors: u32,
}

/// Where bytes are in a body, and how many they are.
#[repr(C)]
#[derive(Clone, Copy, Debug, Default, PartialEq, Eq)]
pub struct PartRecord {
    pub start: usize,
    pub length: usize,
}

#[repr(C)]
#[derive(Clone, Copy, Debug, Default, PartialEq, Eq)]
pub struct SummaryRecord {
    pub unit: u64,
    pub mirrors: u32,
    pub servers: u32,
    pub flags: u32,
    pub hint: u32,
}

/// The data server of a mirror and a stripe starts at `starts[SERVERS * mirror + stripe]`.
#[repr(C)]
#[derive(Clone, Copy, Debug, PartialEq, Eq)]
pub struct LayoutResult {
    pub refusal: u32,
    pub summary: SummaryRecord,
    pub starts: [u16; MIRRORS * SERVERS],
}

#[repr(C)]
#[derive(Clone, Copy, Debug, PartialEq, Eq)]
pub struct Layout4Result {
    pub refusal: u32,
    pub iomode: u32,
    pub offset: u64,
    pub length: u64,
    pub last: u64,
    pub body: PartRecord,
    pub summary: SummaryRecord,
    pub starts: [u16; MIRRORS * SERVERS],
}

#[repr(C)]
#[derive(Clone, Copy, Debug, Default, PartialEq, Eq)]
pub struct AddressRecord {
    pub class: u32,
    pub text: PartRecord,
}

#[repr(C)]
#[derive(Clone, Copy, Debug, Default, PartialEq, Eq)]
pub struct VersionRecord {
    pub version: u32,
    pub minor: u32,
    pub rsize: u32,
    pub wsize: u32,
    pub tight: u32,
}

#[repr(C)]
#[derive(Clone, Copy, Debug, Default, PartialEq, Eq)]
pub struct DeviceResult {
    pub refusal: u32,
    pub address_count: u32,
    pub version_count: u32,
    pub addresses: [AddressRecord; 8],
    pub versions: [VersionRecord; 8],
}

#[repr(C)]
#[derive(Clone, Copy, Debug, Default, PartialEq, Eq)]
pub struct BindResult {
    pub refusal: u32,
    pub entry: u32,
    pub version: VersionRecord,
    pub filehandle: PartRecord,
    pub stateid: usize,
    pub user: PartRecord,
    pub group: PartRecord,
}

#[repr(C)]
#[derive(Clone, Copy, Debug, Default, PartialEq, Eq)]
pub struct ReportHead {
    pub offset: u64,
    pub length: u64,
    pub stateid: [u8; 16],
    pub errors: u32,
}

#[repr(C)]
#[derive(Clone, Copy, Debug, Default, PartialEq, Eq)]
pub struct ReportsResult {
    pub refusal: u32,
    pub count: u32,
    pub heads: [ReportHead; REPORTS],
    pub errors_at: [usize; REPORTS],
}

/// `device` is the offset of the device id's 16 bytes.
#[repr(C)]
#[derive(Clone, Copy, Debug, Default, PartialEq, Eq)]
pub struct ErrorResult {
    pub refusal: u32,
    pub device: usize,
    pub status: u32,
    pub operation: u32,
}

#[repr(C)]
#[derive(Clone, Copy, Debug, Default, PartialEq, Eq)]
pub struct ReportHeads {
    pub heads: [ReportHead; REPORTS],
}

#[repr(C)]
#[derive(Clone, Copy, Debug, Default, PartialEq, Eq)]
pub struct ErrorRecord {
    pub device: [u8; 16],
    pub status: u32,
    pub operation: u32,
}

#[repr(C)]
#[derive(Clone, Copy, Debug, Default, PartialEq, Eq)]
pub struct WriteResult {
    pub refusal: u32,
    pub length: u64,
}

/// Seconds are signed on the wire: 2^63 and more are negative.
#[repr(C)]
#[derive(Clone, Copy, Debug, Default, PartialEq, Eq)]
pub struct TimeRecord {
    pub seconds: u64,
    pub nanoseconds: u32,
}

#[repr(C)]
#[derive(Clone, Copy, Debug, Default, PartialEq, Eq)]
pub struct IoInfoRecord {
    pub count: u64,
    pub bytes: u64,
}

#[repr(C)]
#[derive(Clone, Copy, Debug, Default, PartialEq, Eq)]
pub struct LatencyRecord {
    pub ops_requested: u64,
    pub bytes_requested: u64,
    pub ops_completed: u64,
    pub bytes_completed: u64,
    pub bytes_not_delivered: u64,
    pub busy: TimeRecord,
    pub completion: TimeRecord,
}

/// The first `length` bytes count, the others are spare: 0 after reading, and ignored in writing.
#[repr(C)]
#[derive(Clone, Copy, Debug, PartialEq, Eq)]
pub struct OpaqueRecord<const LONGEST: usize> {
    pub length: u32,
    pub bytes: [u8; LONGEST],
}

impl<const LONGEST: usize> Default for OpaqueRecord<LONGEST> {
    fn default() -> Self {
        OpaqueRecord { length: 0, bytes: [0; LONGEST] }
    }
}

impl<const LONGEST: usize> OpaqueRecord<LONGEST> {
    /// Of a content that is too long the bytes are cut and the length is not, so that the core refuses it.
    pub fn of(content: &[u8]) -> Self {
        let mut record = OpaqueRecord { length: count(content.len()), ..Self::default() };
        record.bytes.iter_mut().zip(content).for_each(|(place, byte)| *place = *byte);
        record
    }

    /// The bytes that count; all that are there where the length says more.
    pub fn content(&self) -> &[u8] {
        &self.bytes[..LONGEST.min(self.length as usize)]
    }
}

/// A count that does not fit is above every limit all the same.
pub(crate) fn count(length: usize) -> u32 {
    length.try_into().unwrap_or(u32::MAX)
}

pub type NetidRecord = OpaqueRecord<8>;
pub type AddressTextRecord = OpaqueRecord<64>;
pub type FilehandleRecord = OpaqueRecord<128>;

#[repr(C)]
#[derive(Clone, Copy, Debug, Default, PartialEq, Eq)]
pub struct NetaddrRecord {
    pub netid: NetidRecord,
    pub text: AddressTextRecord,
}

#[repr(C)]
#[derive(Clone, Copy, Debug, Default, PartialEq, Eq)]
pub struct LayoutUpdateRecord {
    pub address: NetaddrRecord,
    pub filehandle: FilehandleRecord,
    pub read: LatencyRecord,
    pub write: LatencyRecord,
    pub duration: TimeRecord,
    pub local: u32,
}

#[repr(C)]
#[derive(Clone, Copy, Debug, Default, PartialEq, Eq)]
pub struct StatisticRecord {
    pub offset: u64,
    pub length: u64,
    pub stateid: [u8; 16],
    pub read: IoInfoRecord,
    pub write: IoInfoRecord,
    pub device: [u8; 16],
    pub update: LayoutUpdateRecord,
}

#[repr(C)]
#[derive(Clone, Copy, Debug, Default, PartialEq, Eq)]
pub struct StatisticsResult {
    pub refusal: u32,
    pub count: u32,
    pub statistics: [StatisticRecord; STATISTICS],
}

/// Entries from a count on are not looked at.
#[repr(C)]
#[derive(Clone, Copy, Debug, Default, PartialEq, Eq)]
pub struct Outgoing {
    pub count: u32,
    pub heads: [ReportHead; REPORTS],
    pub statistic_count: u32,
    pub statistics: [StatisticRecord; STATISTICS],
}

mod exported {
    use super::*;

    extern "C" {
        pub fn basilothyn_empty_table() -> TableRecord;
        pub fn basilothyn_grant(
            table: TableRecord,
            store: *mut u8,
            store_length: usize,
            bytes: *const u8,
            length: usize,
        ) -> EventResult;
        pub fn basilothyn_return(
            table: TableRecord,
            store: *mut u8,
            store_length: usize,
            offset: u64,
            length: u64,
            iomode: u32,
        ) -> EventResult;
        pub fn basilothyn_recall(
            table: TableRecord,
            store: *mut u8,
            store_length: usize,
            offset: u64,
            length: u64,
            iomode: u32,
        ) -> EventResult;
        pub fn basilothyn_revoke(table: TableRecord, store: *mut u8, store_length: usize) -> EventResult;
        pub fn basilothyn_locate_read(
            table: TableRecord,
            store: *const u8,
            store_length: usize,
            offset: u64,
            length: u64,
        ) -> LocateResult;
        pub fn basilothyn_locate_write(
            table: TableRecord,
            store: *const u8,
            store_length: usize,
            offset: u64,
            length: u64,
        ) -> LocateResult;
        pub fn basilothyn_read_layout(body: *const u8, length: usize) -> LayoutResult;
        pub fn basilothyn_read_layout4(bytes: *const u8, length: usize) -> Layout4Result;
        pub fn basilothyn_read_device(body: *const u8, length: usize) -> DeviceResult;
        pub fn basilothyn_bind(
            layout: *const u8,
            layout_length: usize,
            mirror: u32,
            stripe: u32,
            device: *const u8,
            device_length: usize,
            id: *const [u8; 16],
            supported: u32,
        ) -> BindResult;
        pub fn basilothyn_read_reports(body: *const u8, length: usize) -> ReportsResult;
        pub fn basilothyn_read_error(body: *const u8, length: usize, at: usize) -> ErrorResult;
        pub fn basilothyn_write_report(
            count: u32,
            heads: ReportHeads,
            errors: *const ErrorRecord,
            error_count: usize,
            out: *mut u8,
            out_length: usize,
        ) -> WriteResult;
        pub fn basilothyn_read_statistics(body: *const u8, length: usize) -> StatisticsResult;
        pub fn basilothyn_write_return(
            outgoing: Outgoing,
            errors: *const ErrorRecord,
            error_count: usize,
            out: *mut u8,
            out_length: usize,
        ) -> WriteResult;
    }
}

// Each function below hands on slices, which are valid for their lengths; one that is written to overlaps no other, as the borrow checker has seen.

pub fn empty_table() -> TableRecord {
    unsafe { exported::basilothyn_empty_table() }
}

pub fn grant(table: TableRecord, store: &mut [u8], bytes: &[u8]) -> EventResult {
    unsafe { exported::basilothyn_grant(table, store.as_mut_ptr(), store.len(), bytes.as_ptr(), bytes.len()) }
}

pub fn layout_return(table: TableRecord, store: &mut [u8], offset: u64, length: u64, iomode: u32) -> EventResult {
    unsafe { exported::basilothyn_return(table, store.as_mut_ptr(), store.len(), offset, length, iomode) }
}

pub fn recall(table: TableRecord, store: &mut [u8], offset: u64, length: u64, iomode: u32) -> EventResult {
    unsafe { exported::basilothyn_recall(table, store.as_mut_ptr(), store.len(), offset, length, iomode) }
}

pub fn revoke(table: TableRecord, store: &mut [u8]) -> EventResult {
    unsafe { exported::basilothyn_revoke(table, store.as_mut_ptr(), store.len()) }
}

pub fn locate_read(table: TableRecord, store: &[u8], offset: u64, length: u64) -> LocateResult {
    unsafe { exported::basilothyn_locate_read(table, store.as_ptr(), store.len(), offset, length) }
}

pub fn locate_write(table: TableRecord, store: &[u8], offset: u64, length: u64) -> LocateResult {
    unsafe { exported::basilothyn_locate_write(table, store.as_ptr(), store.len(), offset, length) }
}

pub fn read_layout(body: &[u8]) -> LayoutResult {
    unsafe { exported::basilothyn_read_layout(body.as_ptr(), body.len()) }
}

pub fn read_layout4(bytes: &[u8]) -> Layout4Result {
    unsafe { exported::basilothyn_read_layout4(bytes.as_ptr(), bytes.len()) }
}

pub fn read_device(body: &[u8]) -> DeviceResult {
    unsafe { exported::basilothyn_read_device(body.as_ptr(), body.len()) }
}

pub fn bind(layout: &[u8], mirror: u32, stripe: u32, device: &[u8], id: &[u8; 16], supported: u32) -> BindResult {
    unsafe {
        exported::basilothyn_bind(
            layout.as_ptr(),
            layout.len(),
            mirror,
            stripe,
            device.as_ptr(),
            device.len(),
            id,
            supported,
        )
    }
}

pub fn read_reports(body: &[u8]) -> ReportsResult {
    unsafe { exported::basilothyn_read_reports(body.as_ptr(), body.len()) }
}

pub fn read_error(body: &[u8], at: usize) -> ErrorResult {
    unsafe { exported::basilothyn_read_error(body.as_ptr(), body.len(), at) }
}

pub fn write_report(count: u32, heads: ReportHeads, errors: &[ErrorRecord], out: &mut [u8]) -> WriteResult {
    unsafe {
        exported::basilothyn_write_report(count, heads, errors.as_ptr(), errors.len(), out.as_mut_ptr(), out.len())
    }
}

pub fn read_statistics(body: &[u8]) -> StatisticsResult {
    unsafe { exported::basilothyn_read_statistics(body.as_ptr(), body.len()) }
}

pub fn write_return(outgoing: Outgoing, errors: &[ErrorRecord], out: &mut [u8]) -> WriteResult {
    unsafe { exported::basilothyn_write_return(outgoing, errors.as_ptr(), errors.len(), out.as_mut_ptr(), out.len()) }
}
