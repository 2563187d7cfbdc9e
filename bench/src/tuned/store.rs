//! The store: eight slots of 4,096 bytes, each with length (4, little-endian), kind (2, little-endian), body and zeros.

use super::bytes::is_zero;
use super::layout::BODY_LIMIT;

pub const SLOTS: usize = 8;
pub const SLOT: usize = 4_096;
pub const STORE: usize = SLOTS * SLOT;
const BODY: usize = 6;

/// The body of a slot that is laid out as it must be.
pub fn body_in(slot: &[u8; SLOT]) -> Option<&[u8]> {
    let [a, b, c, d, kind, 0, behind @ ..] = slot else { return None };
    let length = u32::from_le_bytes([*a, *b, *c, *d]) as usize;
    if length > BODY_LIMIT || *kind != 4 {
        return None;
    }
    let (body, rest) = behind.split_at(length);
    is_zero(rest).then_some(body)
}

/// An unnamed slot is all zeros, so only what is not zero is written.
pub fn write_slot(store: &mut [u8], slot: u8, body: &[u8]) {
    let bytes = &mut store[usize::from(slot) * SLOT..][..BODY + body.len()];
    bytes[..4].copy_from_slice(&(body.len() as u32).to_le_bytes());
    bytes[4] = 4;
    bytes[BODY..].copy_from_slice(body);
}

/// Zeroes the slots of a set of bits.
pub fn clear_slots(store: &mut [u8], slots: u8) {
    for (number, bytes) in store.chunks_exact_mut(SLOT).enumerate() {
        if slots & 1 << number != 0 {
            bytes.fill(0);
        }
    }
}
