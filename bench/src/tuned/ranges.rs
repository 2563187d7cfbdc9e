//! Ranges of file bytes, and the iomodes.

pub const READ: u32 = 1;
pub const RW: u32 = 2;
pub const ANY: u32 = 3;

/// The last byte of a range, or 5. A length of 2^64 - 1 means through the last byte of a file.
pub fn last_byte(offset: u64, length: u64) -> Result<u64, u32> {
    match length {
        0 => Err(5),
        u64::MAX => Ok(u64::MAX),
        _ if length <= u64::MAX - offset => Ok(offset + (length - 1)),
        _ => Err(5),
    }
}

/// A request for I/O has no special length.
pub fn check_io(offset: u64, length: u64) -> Result<(), u32> {
    if length == 0 || length > u64::MAX - offset {
        return Err(5);
    }
    Ok(())
}

/// Whether a return or recall acts on READ, and whether on RW.
pub fn acted_on(iomode: u32) -> Result<(bool, bool), u32> {
    match iomode {
        READ => Ok((true, false)),
        RW => Ok((false, true)),
        ANY => Ok((true, true)),
        _ => Err(3),
    }
}
