//! The layout body.

use super::bytes::{count, long, word};

pub const BODY_LIMIT: usize = 4_090;
pub const STRIPES: usize = 16;
/// Eight mirrors of 16 servers.
const STARTS: usize = 8 * STRIPES;
/// In a server: device id (16), efficiency (4), stateid (16), filehandle count (4), filehandles.
pub const EFFICIENCY: usize = 16;
const HANDLE_COUNT: usize = 36;
const HANDLES: usize = 40;

#[derive(Clone, Copy, Debug, PartialEq, Eq)]
pub struct Summary {
    pub unit: u64,
    pub mirrors: u32,
    pub servers: u32,
    pub flags: u32,
    pub hint: u32,
}

/// The start of a server is at 16 times its mirror and its stripe.
#[derive(Clone, Copy, Debug, PartialEq, Eq)]
pub struct Layout {
    pub summary: Summary,
    pub starts: [u16; STARTS],
}

pub fn read_layout(body: &[u8]) -> Result<Layout, u32> {
    let mut starts = [0; STARTS];
    let summary = walk(body, |place, start| starts[place] = start as u16)?;
    Ok(Layout { summary, starts })
}

pub fn accepts(body: &[u8]) -> Result<(), u32> {
    walk(body, |_, _| ()).map(|_| ())
}

/// Reads a body and hands on the offset and the start of each server.
#[inline(always)]
pub fn walk(body: &[u8], mut server: impl FnMut(usize, usize)) -> Result<Summary, u32> {
    if body.len() > BODY_LIMIT {
        return Err(8);
    }
    let unit = long(body, 0)?;
    let mirrors = count(body, 8, 1, 8)?;
    let (mut at, mut servers) = (12, 0);
    for mirror in 0..mirrors {
        let own = count(body, at, 1, STRIPES as u32)?;
        if mirror == 0 {
            servers = own;
            check_unit(unit, servers)?;
        } else if own != servers {
            return Err(9);
        }
        at += 4;
        for stripe in 0..servers {
            server(mirror * STRIPES + stripe, at);
            at = behind_server(body, at)?;
        }
    }
    let flags = word(body, at)?;
    if flags > 15 {
        return Err(11);
    }
    let hint = word(body, at + 4)?;
    if body.len() != at + 8 {
        return Err(2);
    }
    Ok(Summary { unit, mirrors: mirrors as u32, servers: servers as u32, flags, hint })
}

#[inline(always)]
fn check_unit(unit: u64, servers: usize) -> Result<(), u32> {
    if (servers == 1) == (unit == 0) {
        Ok(())
    } else {
        Err(10)
    }
}

/// The items in front of the filehandle count can only run out, and so does it then.
#[inline(always)]
fn behind_server(body: &[u8], start: usize) -> Result<usize, u32> {
    let handles = count(body, start + HANDLE_COUNT, 1, 8)?;
    let mut at = start + HANDLES;
    for _ in 0..handles {
        at = behind_opaque(body, at, 1, 128)?;
    }
    at = behind_opaque(body, at, 0, 64)?;
    behind_opaque(body, at, 0, 64)
}

#[inline(always)]
pub fn behind_opaque(body: &[u8], at: usize, least: u32, most: u32) -> Result<usize, u32> {
    let length = count(body, at, least, most)?;
    let end = at + 4 + length.next_multiple_of(4);
    // The item's last four bytes hold its padding; those of an empty one are its length.
    let last = word(body, end - 4)?;
    let padding = length.wrapping_neg() % 4;
    if last & ((1 << (8 * padding)) - 1) != 0 {
        return Err(6);
    }
    Ok(end)
}
