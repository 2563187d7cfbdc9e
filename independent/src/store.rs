//! The bodies that segments name, in 01's words the "shelf": a borrowed buffer
//! of eight slots, each with "length (4 bytes, little-endian), kind (2 bytes,
//! little-endian, value 4), body, zeros to the end".

use crate::layout::BODY_LIMIT;
use crate::layout4::FLEX_FILES;

/// "8 slots"
pub const SLOT_COUNT: usize = 8;
/// "of 4,096"
pub const SLOT_LENGTH: usize = 4_096;
/// "a lent buffer of 32,768 bytes"
pub const STORE_LENGTH: usize = SLOT_COUNT * SLOT_LENGTH;
/// Length and kind are before the body.
pub const BODY_IN_SLOT: usize = 6;

/// The slots of a store, front to back.
pub fn slots(store: &[u8]) -> impl Iterator<Item = &[u8]> {
    store.chunks(SLOT_LENGTH)
}

/// The number in a slot's first four bytes.
pub fn stated_length(slot: &[u8]) -> u32 {
    u32::from_le_bytes([slot[0], slot[1], slot[2], slot[3]])
}

/// The body of a slot that is laid out as said; the body itself is not judged.
pub fn body_in(slot: &[u8]) -> Option<&[u8]> {
    let length = stated_length(slot) as usize;
    let kind = u16::from_le_bytes([slot[4], slot[5]]);
    if length > BODY_LIMIT || u32::from(kind) != FLEX_FILES {
        return None;
    }
    let (body, tail) = slot[BODY_IN_SLOT..].split_at(length);
    is_zero(tail).then_some(body)
}

pub fn is_zero(bytes: &[u8]) -> bool {
    bytes.iter().all(|&byte| byte == 0)
}

/// Writes a slot whole: header, body, zeros.
pub fn write_slot(store: &mut [u8], slot: usize, body: &[u8]) {
    clear_slot(store, slot);
    let bytes = &mut store[slot * SLOT_LENGTH..];
    bytes[..4].copy_from_slice(&(body.len() as u32).to_le_bytes());
    bytes[4..BODY_IN_SLOT].copy_from_slice(&(FLEX_FILES as u16).to_le_bytes());
    bytes[BODY_IN_SLOT..BODY_IN_SLOT + body.len()].copy_from_slice(body);
}

pub fn clear_slot(store: &mut [u8], slot: usize) {
    store[slot * SLOT_LENGTH..][..SLOT_LENGTH].fill(0);
}

#[cfg(test)]
mod tests {
    use super::*;

    #[test]
    fn a_slot_is_header_body_and_zeros() {
        let mut store = vec![0xff; STORE_LENGTH];
        write_slot(&mut store, 2, &[7; 300]);
        let slot = slots(&store).nth(2).unwrap();
        assert_eq!(slot[..7], [44, 1, 0, 0, 4, 0, 7]);
        assert_eq!(body_in(slot), Some(&[7; 300][..]));
        assert!(is_zero(&slot[306..]));
        assert!(store[..8_192].iter().chain(&store[12_288..]).all(|&byte| byte == 0xff));
        clear_slot(&mut store, 2);
        assert!(is_zero(&store[8_192..12_288]));
    }

    #[test]
    fn other_slots_hold_no_body() {
        let mut slot = vec![0; SLOT_LENGTH];
        assert_eq!(body_in(&slot), None);
        slot[4] = 4;
        assert_eq!(body_in(&slot), Some(&[][..]));
        slot[5] = 1;
        assert_eq!(body_in(&slot), None);
        slot[..6].copy_from_slice(&[0xfa, 0x0f, 0, 0, 4, 0]);
        assert_eq!(body_in(&slot).map(<[u8]>::len), Some(4_090));
        slot[0] = 0xfb;
        assert_eq!(body_in(&slot), None);
        slot[..2].copy_from_slice(&[80, 0]);
        slot[86] = 1;
        assert_eq!(body_in(&slot), None);
    }
}
