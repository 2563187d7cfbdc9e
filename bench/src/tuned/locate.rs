//! Where an I/O goes.

use super::bytes::{long, word};
use super::layout::{accepts, walk, EFFICIENCY, STRIPES};
use super::ranges::{check_io, READ, RW};
use super::soundness::{sound_by, Named};
use super::store::SLOTS;
use super::table::{Right, Segments, Table};

/// In a body: unit (8), mirror count (4), the first mirror's server count (4).
const MIRROR_COUNT: usize = 8;
const SERVER_COUNT: usize = 12;
/// A body ends with flags (4) and hint (4).
const FLAGS_FROM_END: usize = 8;
const NO_READ: u32 = 4;
const WRITE_ONE_MIRROR: u32 = 8;

/// The mirrors are a set of bits.
#[derive(Clone, Copy, Debug, PartialEq, Eq)]
pub struct Location {
    pub iomode: u32,
    pub slot: u32,
    pub stripe: u32,
    pub offset: u64,
    pub length: u64,
    pub mirrors: u32,
}

/// What may serve a request: the iomode, the last byte of the granted segment, its slot.
type Source = (u32, u64, u8);

/// What a body says of a byte: its stripe, how far the last byte of its unit is, and the best mirror at that stripe.
#[derive(Clone, Copy, Default)]
struct Judged {
    stripe: usize,
    rest: u64,
    mirror: usize,
}

pub fn locate_read(table: &Table, store: &[u8], offset: u64, length: u64) -> Result<Location, u32> {
    let (by_rw, by_read) = (granted_at(&table.rw, RW, offset), granted_at(&table.read, READ, offset));
    let (named, judged) = sound_and_judged(table, store, offset, [by_rw, by_read])?;
    check_io(offset, length)?;
    let by_rw = by_rw.filter(|source| flags(body_of(&named, source)) & NO_READ == 0);
    let source = by_rw.or(by_read).ok_or(17_u32)?;
    let judged = judged[usize::from(source.2)];
    Ok(piece(source, &judged, offset, length, 1 << judged.mirror))
}

pub fn locate_write(table: &Table, store: &[u8], offset: u64, length: u64) -> Result<Location, u32> {
    let by_rw = granted_at(&table.rw, RW, offset);
    let (named, judged) = sound_and_judged(table, store, offset, [by_rw, None])?;
    check_io(offset, length)?;
    let source = by_rw.ok_or(17_u32)?;
    let (body, judged) = (body_of(&named, &source), judged[usize::from(source.2)]);
    let all = (1 << number(body, MIRROR_COUNT)) - 1;
    let mirrors = if flags(body) & WRITE_ONE_MIRROR == 0 { all } else { 1 << judged.mirror };
    Ok(piece(source, &judged, offset, length, mirrors))
}

/// What the named slots hold, and what the bodies that may serve say of the byte, or 20. Each body is read once. The sources are asked for before the table
/// is known to be sound; where it is not, they are not used.
#[inline(always)]
fn sound_and_judged<'a>(
    table: &Table,
    store: &'a [u8],
    byte: u64,
    sources: [Option<Source>; 2],
) -> Result<(Named<'a>, [Judged; SLOTS]), u32> {
    let mut judged = [Judged::default(); SLOTS];
    let slots = sources.map(|source| source.map(|(_, _, slot)| usize::from(slot)));
    let named = sound_by(table, store, |slot, body| {
        if slots.contains(&Some(slot)) {
            judged[slot] = judge(body, byte)?;
            Ok(())
        } else {
            accepts(body)
        }
    })?;
    Ok((named, judged))
}

fn granted_at(list: &Segments, iomode: u32, byte: u64) -> Option<Source> {
    let used = list.entries.get(..list.count)?;
    let segment = used.get(used.partition_point(|segment| segment.last < byte))?;
    match segment.right {
        Right::Granted(slot) if segment.first <= byte => Some((iomode, segment.last, slot)),
        _ => None,
    }
}

fn body_of<'a>(named: &Named<'a>, source: &Source) -> &'a [u8] {
    named.bodies[usize::from(source.2)]
}

/// A number of a body; 0 where its bytes run out.
#[inline(always)]
fn number(body: &[u8], at: usize) -> u32 {
    word(body, at).unwrap_or(0)
}

fn flags(body: &[u8]) -> u32 {
    number(body, body.len() - FLAGS_FROM_END)
}

/// Reads a body as `accepts` does. The highest efficiency of a server at the byte's stripe is the best, the lowest mirror on a tie.
#[inline(always)]
fn judge(body: &[u8], byte: u64) -> Result<Judged, u32> {
    let (unit, servers) = (long(body, 0)?, word(body, SERVER_COUNT)?);
    let mut judged = Judged { stripe: 0, rest: u64::MAX, mirror: 0 };
    if servers > 1 && unit > 0 {
        let units = byte / unit;
        judged.stripe = (units % u64::from(servers)) as usize;
        judged.rest = unit - 1 - (byte - units * unit);
    }
    let mut highest = 0;
    walk(body, |place, start| {
        if place % STRIPES == judged.stripe {
            let efficiency = number(body, start + EFFICIENCY);
            if efficiency > highest {
                (judged.mirror, highest) = (place / STRIPES, efficiency);
            }
        }
    })?;
    Ok(judged)
}

fn piece(source: Source, judged: &Judged, offset: u64, length: u64, mirrors: u32) -> Location {
    let (iomode, last, slot) = source;
    // By how far the last byte is from the first: the rest of a segment can be 2^64 bytes.
    let distance = (length - 1).min(last - offset).min(judged.rest);
    Location { iomode, slot: slot.into(), stripe: judged.stripe as u32, offset, length: distance + 1, mirrors }
}
