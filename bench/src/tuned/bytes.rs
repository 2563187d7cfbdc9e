//! Numbers of the wire, and bytes that are all zero. A refusal is its number.

/// Long enough for wide instructions, short enough to stop soon.
const BLOCK: usize = 256;

#[inline(always)]
pub fn word(bytes: &[u8], at: usize) -> Result<u32, u32> {
    Ok(u32::from_be_bytes(*fixed(bytes, at)?))
}

#[inline(always)]
pub fn long(bytes: &[u8], at: usize) -> Result<u64, u32> {
    Ok(u64::from_be_bytes(*fixed(bytes, at)?))
}

/// A count or length, an item of its own.
#[inline(always)]
pub fn count(bytes: &[u8], at: usize, least: u32, most: u32) -> Result<usize, u32> {
    let number = word(bytes, at)?;
    if number < least || number > most {
        return Err(8);
    }
    Ok(number as usize)
}

#[inline(always)]
fn fixed<const N: usize>(bytes: &[u8], at: usize) -> Result<&[u8; N], u32> {
    bytes.get(at..).and_then(|rest| rest.first_chunk()).ok_or(1)
}

pub fn is_zero(bytes: &[u8]) -> bool {
    let (blocks, rest) = bytes.as_chunks::<BLOCK>();
    blocks.iter().all(|block| run_is_zero(block)) && run_is_zero(rest)
}

/// No exit inside, so that the loop becomes wide instructions.
#[inline(always)]
fn run_is_zero(run: &[u8]) -> bool {
    run.iter().fold(0, |all, byte| all | byte) == 0
}
