//! Case files: the stored one ([`stored`]) and random ones ([`mixed`]).

pub mod aimed_requests;
pub mod bad_records;
pub mod bindings;
pub mod captured;
pub mod corruptions;
pub mod devices;
pub mod event_bursts;
pub mod file_ends;
pub mod granted_bytes;
pub mod judged_mirrors;
pub mod layout4s;
pub mod layouts;
pub mod locates;
pub mod mixed;
pub mod overlaps;
pub mod random_statistics;
pub mod reports_read;
pub mod reports_written;
pub mod segment_limits;
pub mod slot_limits;
pub mod statistic_faults;
pub mod statistics_read;
pub mod statistics_written;
pub mod stored;
pub mod striped_bodies;
pub mod unsound;

use independent::cases::CaseFileWriter;
use independent::iomode::{IOMODE_READ, IOMODE_RW};
use independent::table_cases::TableCase;

/// The iomodes of a grant.
pub const GRANT_IOMODES: [u32; 2] = [IOMODE_READ, IOMODE_RW];

/// Asks for the table and the store.
pub fn show(cases: &mut CaseFileWriter) {
    cases.table(&TableCase::ShowTable);
    cases.table(&TableCase::ShowStore);
}
