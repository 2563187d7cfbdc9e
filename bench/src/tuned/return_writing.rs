//! The body of a layout return, written: all is judged and the body's size known before the first byte is stored.

use super::ranges::last_byte;
use super::returns::{check_error, check_time, BEHIND, ERROR, FRONT, HEAD};
use basilothyn::raw::{ErrorRecord, LatencyRecord, OpaqueRecord, Outgoing, ReportHead, StatisticRecord, TimeRecord};

pub fn write_return(outgoing: &Outgoing, errors: &[ErrorRecord], out: &mut [u8]) -> Result<usize, u32> {
    let heads = outgoing.heads.get(..outgoing.count as usize).ok_or(8_u32)?;
    if heads.iter().map(|head| u64::from(head.errors)).sum::<u64>() != errors.len() as u64 {
        return Err(8);
    }
    let statistics = outgoing.statistics.get(..outgoing.statistic_count as usize).ok_or(8_u32)?;
    check_reports(heads, errors)?;
    let mut size = 4 + HEAD * heads.len() + ERROR * errors.len() + 4;
    for statistic in statistics {
        size += checked_size(statistic)?;
    }
    let mut rest = out.get_mut(..size).ok_or(26_u32)?;
    put_reports(&mut rest, heads, errors);
    put(&mut rest, &outgoing.statistic_count.to_be_bytes());
    statistics.iter().for_each(|statistic| put_statistic(&mut rest, statistic));
    Ok(size)
}

fn check_reports(heads: &[ReportHead], errors: &[ErrorRecord]) -> Result<(), u32> {
    let mut later = errors;
    for head in heads {
        last_byte(head.offset, head.length)?;
        if !(1..=16).contains(&head.errors) {
            return Err(8);
        }
        let own;
        (own, later) = later.split_at(head.errors as usize);
        own.iter().try_for_each(|error| check_error(error.status, error.operation))?;
    }
    Ok(())
}

fn checked_size(statistic: &StatisticRecord) -> Result<usize, u32> {
    last_byte(statistic.offset, statistic.length)?;
    let update = &statistic.update;
    let size = FRONT
        + opaque_size(&update.address.netid)?
        + opaque_size(&update.address.text)?
        + opaque_size(&update.filehandle)?
        + BEHIND;
    let (read, write) = (&update.read, &update.write);
    for time in [read.busy, read.completion, write.busy, write.completion, update.duration] {
        check_time(time.seconds, time.nanoseconds)?;
    }
    if update.local > 1 {
        return Err(7);
    }
    Ok(size)
}

fn opaque_size<const LONGEST: usize>(record: &OpaqueRecord<LONGEST>) -> Result<usize, u32> {
    if !(1..=LONGEST as u32).contains(&record.length) {
        return Err(8);
    }
    Ok(4 + (record.length as usize).next_multiple_of(4))
}

#[inline(always)]
fn put(rest: &mut &mut [u8], bytes: &[u8]) {
    let (front, behind) = std::mem::take(rest).split_at_mut(bytes.len());
    front.copy_from_slice(bytes);
    *rest = behind;
}

fn put_reports(rest: &mut &mut [u8], heads: &[ReportHead], errors: &[ErrorRecord]) {
    let mut later = errors;
    put(rest, &(heads.len() as u32).to_be_bytes());
    for head in heads {
        put(rest, &head.offset.to_be_bytes());
        put(rest, &head.length.to_be_bytes());
        put(rest, &head.stateid);
        put(rest, &head.errors.to_be_bytes());
        let own;
        (own, later) = later.split_at(head.errors as usize);
        for error in own {
            put(rest, &error.device);
            put(rest, &error.status.to_be_bytes());
            put(rest, &error.operation.to_be_bytes());
        }
    }
}

fn put_statistic(rest: &mut &mut [u8], statistic: &StatisticRecord) {
    put(rest, &statistic.offset.to_be_bytes());
    put(rest, &statistic.length.to_be_bytes());
    put(rest, &statistic.stateid);
    for number in [statistic.read.count, statistic.read.bytes, statistic.write.count, statistic.write.bytes] {
        put(rest, &number.to_be_bytes());
    }
    put(rest, &statistic.device);
    let update = &statistic.update;
    put_opaque(rest, &update.address.netid);
    put_opaque(rest, &update.address.text);
    put_opaque(rest, &update.filehandle);
    put_latency(rest, &update.read);
    put_latency(rest, &update.write);
    put_time(rest, update.duration);
    put(rest, &update.local.to_be_bytes());
}

#[inline(always)]
fn put_opaque<const LONGEST: usize>(rest: &mut &mut [u8], record: &OpaqueRecord<LONGEST>) {
    let length = record.length as usize;
    put(rest, &record.length.to_be_bytes());
    put(rest, &record.bytes[..length]);
    put(rest, &[0; 3][..length.wrapping_neg() % 4]);
}

#[inline(always)]
fn put_latency(rest: &mut &mut [u8], latency: &LatencyRecord) {
    put(rest, &latency.ops_requested.to_be_bytes());
    put(rest, &latency.bytes_requested.to_be_bytes());
    put(rest, &latency.ops_completed.to_be_bytes());
    put(rest, &latency.bytes_completed.to_be_bytes());
    put(rest, &latency.bytes_not_delivered.to_be_bytes());
    put_time(rest, latency.busy);
    put_time(rest, latency.completion);
}

#[inline(always)]
fn put_time(rest: &mut &mut [u8], time: TimeRecord) {
    put(rest, &time.seconds.to_be_bytes());
    put(rest, &time.nanoseconds.to_be_bytes());
}
