//! The body of a layout return, read: reports, then records of statistics. All of it is judged, whichever half is asked
//! for.

use super::bytes::{count, long, word};
use super::layout::behind_opaque;
use super::ranges::last_byte;
use basilothyn::raw::{IoInfoRecord, LatencyRecord, LayoutUpdateRecord, NetaddrRecord, OpaqueRecord, TimeRecord};
use basilothyn::raw::{ReportHead, ReportsResult, StatisticRecord, StatisticsResult};

pub const HEAD: usize = 36;
pub const ERROR: usize = 24;
/// Of a record: range, stateid, four counts and device id; then netid, address and filehandle; then the rest.
pub const FRONT: usize = 80;
pub const BEHIND: usize = 144;
/// In the rest: two latencies of five numbers and two times each, the duration, and `local`.
const LATENCIES: [usize; 2] = [0, 64];
const TIMES: [usize; 5] = [40, 52, 104, 116, 128];
const LOCAL: usize = 140;

/// Where the lengths of a record's opaque items are, and the rest behind them.
struct Places {
    netid: usize,
    address: usize,
    filehandle: usize,
    rest: usize,
}

pub fn read_reports(body: &[u8]) -> Result<ReportsResult, u32> {
    let mut result = ReportsResult::default();
    let at = walk_reports(body, |number, head, errors_at| {
        (result.heads[number], result.errors_at[number]) = (head, errors_at);
        result.count = number as u32 + 1;
    })?;
    walk_statistics(body, at, |_, _, _| ())?;
    Ok(result)
}

pub fn read_statistics(body: &[u8]) -> Result<StatisticsResult, u32> {
    let mut result = StatisticsResult::default();
    let at = walk_reports(body, |_, _, _| ())?;
    walk_statistics(body, at, |number, start, places| {
        result.statistics[number] = statistic(body, start, places);
        result.count = number as u32 + 1;
    })?;
    Ok(result)
}

/// Hands on each head and the offset of its errors, and answers the offset behind the reports.
#[inline(always)]
fn walk_reports(body: &[u8], mut report: impl FnMut(usize, ReportHead, usize)) -> Result<usize, u32> {
    let reports = count(body, 0, 0, 8)?;
    let mut at = 4;
    for number in 0..reports {
        let (offset, length) = (long(body, at)?, long(body, at + 8)?);
        last_byte(offset, length)?;
        let errors = count(body, at + 32, 1, 16)?;
        let stateid = *body[at + 16..].first_chunk().ok_or(1_u32)?;
        report(number, ReportHead { offset, length, stateid, errors: errors as u32 }, at + HEAD);
        at += HEAD;
        for _ in 0..errors {
            check_error(word(body, at + 16)?, word(body, at + 20)?)?;
            at += ERROR;
        }
    }
    Ok(at)
}

#[inline(always)]
pub fn check_error(status: u32, operation: u32) -> Result<(), u32> {
    if status != 0 && matches!(operation, 5 | 25 | 38) {
        Ok(())
    } else {
        Err(27)
    }
}

/// Hands on where each record starts, and the places in it; the body ends behind them.
#[inline(always)]
fn walk_statistics(body: &[u8], at: usize, mut record: impl FnMut(usize, usize, Places)) -> Result<(), u32> {
    let records = count(body, at, 0, 8)?;
    let mut at = at + 4;
    for number in 0..records {
        let places = judged(body, at)?;
        let end = places.rest + BEHIND;
        record(number, at, places);
        at = end;
    }
    if body.len() == at {
        Ok(())
    } else {
        Err(2)
    }
}

/// What is not judged can only run out, and so does the next item then.
#[inline(always)]
fn judged(body: &[u8], start: usize) -> Result<Places, u32> {
    last_byte(long(body, start)?, long(body, start + 8)?)?;
    let netid = start + FRONT;
    let address = behind_opaque(body, netid, 1, 8)?;
    let filehandle = behind_opaque(body, address, 1, 64)?;
    let rest = behind_opaque(body, filehandle, 1, 128)?;
    match body[rest..].first_chunk::<BEHIND>() {
        Some(whole) => check_rest(whole)?,
        None => check_rest(&body[rest..])?,
    }
    Ok(Places { netid, address, filehandle, rest })
}

#[inline(always)]
fn check_rest(rest: &[u8]) -> Result<(), u32> {
    for at in TIMES {
        check_time(long(rest, at)?, word(rest, at + 8)?)?;
    }
    if word(rest, LOCAL)? > 1 {
        return Err(7);
    }
    Ok(())
}

#[inline(always)]
pub fn check_time(seconds: u64, nanoseconds: u32) -> Result<(), u32> {
    if seconds < 1 << 63 && nanoseconds < 1_000_000_000 {
        Ok(())
    } else {
        Err(28)
    }
}

// The record below is judged: all its bytes are there.

#[inline(always)]
fn statistic(body: &[u8], start: usize, places: Places) -> StatisticRecord {
    let rest = &body[places.rest..][..BEHIND];
    StatisticRecord {
        offset: number(body, start),
        length: number(body, start + 8),
        stateid: fixed(body, start + 16),
        read: IoInfoRecord { count: number(body, start + 32), bytes: number(body, start + 40) },
        write: IoInfoRecord { count: number(body, start + 48), bytes: number(body, start + 56) },
        device: fixed(body, start + 64),
        update: LayoutUpdateRecord {
            address: NetaddrRecord { netid: opaque(body, places.netid), text: opaque(body, places.address) },
            filehandle: opaque(body, places.filehandle),
            read: latency(rest, LATENCIES[0]),
            write: latency(rest, LATENCIES[1]),
            duration: time(rest, TIMES[4]),
            local: u32::from_be_bytes(fixed(rest, LOCAL)),
        },
    }
}

#[inline(always)]
fn fixed<const N: usize>(bytes: &[u8], at: usize) -> [u8; N] {
    *bytes[at..].first_chunk().expect("bytes of a judged record")
}

#[inline(always)]
fn number(bytes: &[u8], at: usize) -> u64 {
    u64::from_be_bytes(fixed(bytes, at))
}

#[inline(always)]
fn opaque<const LONGEST: usize>(body: &[u8], at: usize) -> OpaqueRecord<LONGEST> {
    let length = u32::from_be_bytes(fixed(body, at));
    let mut record = OpaqueRecord { length, ..OpaqueRecord::default() };
    record.bytes[..length as usize].copy_from_slice(&body[at + 4..][..length as usize]);
    record
}

#[inline(always)]
fn latency(rest: &[u8], at: usize) -> LatencyRecord {
    LatencyRecord {
        ops_requested: number(rest, at),
        bytes_requested: number(rest, at + 8),
        ops_completed: number(rest, at + 16),
        bytes_completed: number(rest, at + 24),
        bytes_not_delivered: number(rest, at + 32),
        busy: time(rest, at + 40),
        completion: time(rest, at + 52),
    }
}

#[inline(always)]
fn time(rest: &[u8], at: usize) -> TimeRecord {
    TimeRecord { seconds: number(rest, at), nanoseconds: u32::from_be_bytes(fixed(rest, at + 8)) }
}
