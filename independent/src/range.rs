//! Ranges of file bytes, at full 64 bits.

use crate::refusal::Refusal;

/// The last byte of a file.
pub const LAST_BYTE: u64 = u64::MAX;

/// The bytes of a range. Its end is inclusive, because one past the last byte
/// of a file is no 64-bit number.
#[derive(Clone, Copy, Debug, PartialEq, Eq)]
pub struct ByteRange {
    pub first: u64,
    pub last: u64,
}

/// The bytes that an offset and a length name, or 5.
pub fn byte_range(offset: u64, length: u64) -> Result<ByteRange, Refusal> {
    check_range(offset, length)?;
    // From offset 0, the length 2^64 - 1 also keeps the plain rule; the
    // special meaning wins.
    let last = if length == u64::MAX { LAST_BYTE } else { offset + (length - 1) };
    Ok(ByteRange { first: offset, last })
}

/// 01: "A range has a length above 0. A length of 2^64 - 1 means through byte
/// 2^64 - 1, from any offset. Otherwise offset + length must be at most
/// 2^64 - 1."
pub fn check_range(offset: u64, length: u64) -> Result<(), Refusal> {
    let sum_fits = offset.checked_add(length).is_some();
    if length > 0 && (length == u64::MAX || sum_fits) {
        Ok(())
    } else {
        Err(Refusal::BadRange)
    }
}

/// 01: "An I/O request has no such special length: length above 0 and offset +
/// length at most 2^64 - 1, always." So no request reaches the last byte.
pub fn check_io_range(offset: u64, length: u64) -> Result<(), Refusal> {
    if length > 0 && offset.checked_add(length).is_some() {
        Ok(())
    } else {
        Err(Refusal::BadRange)
    }
}

#[cfg(test)]
mod tests {
    use super::*;

    const MAX: u64 = u64::MAX;

    #[test]
    fn worked_example_at_the_last_byte() {
        assert_eq!(check_range(MAX, MAX), Ok(()));
        assert_eq!(check_range(MAX, 1), Err(Refusal::BadRange));
        assert_eq!(check_range(MAX, 0), Err(Refusal::BadRange));
    }

    #[test]
    fn the_bytes_of_a_range() {
        let bytes = |offset, length| byte_range(offset, length).map(|r| (r.first, r.last));
        assert_eq!(bytes(MAX, MAX), Ok((MAX, MAX)));
        assert_eq!(bytes(0, MAX), Ok((0, MAX)));
        assert_eq!(bytes(1, MAX - 1), Ok((1, MAX - 1)));
        assert_eq!(bytes(40, 20), Ok((40, 59)));
        assert_eq!(bytes(MAX - 1, 1), Ok((MAX - 1, MAX - 1)));
        assert_eq!(bytes(MAX, 1), Err(Refusal::BadRange));
    }

    #[test]
    fn length_zero_is_no_range() {
        assert_eq!(check_range(0, 0), Err(Refusal::BadRange));
    }

    #[test]
    fn the_longest_length_holds_from_any_offset() {
        for offset in [0, 1, 1 << 32, 1 << 63, MAX - 1] {
            assert_eq!(check_range(offset, MAX), Ok(()));
        }
    }

    #[test]
    fn the_sum_is_at_most_the_largest_number() {
        assert_eq!(check_range(1, MAX - 1), Ok(()));
        assert_eq!(check_range(2, MAX - 1), Err(Refusal::BadRange));
        assert_eq!(check_range(MAX - 1, 1), Ok(()));
        assert_eq!(check_range(MAX - 1, 2), Err(Refusal::BadRange));
        assert_eq!(check_range(1 << 63, 1 << 63), Err(Refusal::BadRange));
        assert_eq!(check_range(1 << 63, (1 << 63) - 1), Ok(()));
    }

    #[test]
    fn no_length_of_a_request_is_special() {
        for (offset, longest) in [(0, MAX), (1, MAX - 1), (1 << 63, (1 << 63) - 1), (MAX - 1, 1)] {
            assert_eq!(check_io_range(offset, 0), Err(Refusal::BadRange));
            assert_eq!(check_io_range(offset, 1), Ok(()));
            assert_eq!(check_io_range(offset, longest), Ok(()));
            if longest < MAX {
                assert_eq!(check_io_range(offset, longest + 1), Err(Refusal::BadRange));
                assert_eq!(check_io_range(offset, MAX), Err(Refusal::BadRange));
            }
        }
        for length in [0, 1, 2, MAX] {
            assert_eq!(check_io_range(MAX, length), Err(Refusal::BadRange));
        }
    }
}
