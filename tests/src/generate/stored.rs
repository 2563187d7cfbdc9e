//! The case file that is stored in the repository.

use super::{
    bindings, captured, devices, event_bursts, file_ends, granted_bytes, layout4s, layouts, locates, overlaps,
    reports_read, reports_written, segment_limits, slot_limits, statistics_read, statistics_written, unsound,
};
use independent::cases::CaseFileWriter;
use std::io;

/// The stored case file. It always ends properly, and it fails only where the
/// captures cannot be read.
pub fn stored_file() -> io::Result<Vec<u8>> {
    let captures = captured::read_captures()?;
    let mut cases = CaseFileWriter::default();
    captured::add_bodies(&mut cases, &captures);
    captured::add_bindings(&mut cases, &captures);
    layouts::add(&mut cases);
    layout4s::add(&mut cases);
    devices::add(&mut cases);
    bindings::add(&mut cases);
    reports_read::add(&mut cases);
    reports_written::add(&mut cases);
    statistics_read::add(&mut cases);
    statistics_written::add(&mut cases);
    file_ends::add(&mut cases);
    overlaps::add(&mut cases);
    segment_limits::add(&mut cases);
    slot_limits::add(&mut cases);
    granted_bytes::add(&mut cases);
    locates::add(&mut cases);
    unsound::add(&mut cases);
    event_bursts::add(&mut cases);
    Ok(cases.into_bytes())
}
