//! The `layout4` of a grant.

use super::bytes::{count, is_zero, long, word};
use super::layout::{accepts, BODY_LIMIT};
use super::ranges::{last_byte, READ, RW};

const BODY: usize = 28;

#[derive(Clone, Copy, Debug, PartialEq, Eq)]
pub struct Layout4<'a> {
    pub first: u64,
    pub last: u64,
    pub iomode: u32,
    pub body: &'a [u8],
}

pub fn read_layout4(bytes: &[u8]) -> Result<Layout4<'_>, u32> {
    let first = long(bytes, 0)?;
    let last = last_byte(first, long(bytes, 8)?)?;
    let iomode = word(bytes, 16)?;
    if iomode != READ && iomode != RW {
        return Err(3);
    }
    if word(bytes, 20)? != 4 {
        return Err(4);
    }
    let length = count(bytes, 24, 0, BODY_LIMIT as u32)?;
    let item = bytes[BODY..].get(..length.next_multiple_of(4)).ok_or(1_u32)?;
    let (body, padding) = item.split_at(length);
    accepts(body)?;
    if !is_zero(padding) {
        return Err(6);
    }
    if bytes.len() != BODY + item.len() {
        return Err(2);
    }
    Ok(Layout4 { first, last, iomode, body })
}
