//! The device address body, `ff_device_addr4` of RFC 8435 section 4.1.

use crate::refusal::Refusal;
use crate::xdr::{Cursor, Extent};

/// "At most 2,048 bytes, tested first of all"
pub const BODY_LIMIT: usize = 2_048;
/// "address count (1 to 8)"
pub const ADDRESS_LIMIT: u32 = 8;
/// "a netid (1 to 8 bytes)"
pub const NETID_LENGTH_LIMIT: u32 = 8;
/// "an address (1 to 64 bytes)"
pub const ADDRESS_LENGTH_LIMIT: u32 = 64;
/// "version count (1 to 8)"
pub const VERSION_LIMIT: u32 = 8;

/// "A netid is classed by comparison with `tcp`, `tcp6`, `udp`, `udp6`,
/// `rdma`, `rdma6`; anything else is "other" and accepted."
#[derive(Clone, Copy, Debug, Default, PartialEq, Eq)]
pub enum NetidClass {
    Tcp,
    Tcp6,
    Udp,
    Udp6,
    Rdma,
    Rdma6,
    #[default]
    Other,
}

impl NetidClass {
    /// The class of a netid's whole text.
    pub fn of(netid: &[u8]) -> Self {
        match netid {
            b"tcp" => NetidClass::Tcp,
            b"tcp6" => NetidClass::Tcp6,
            b"udp" => NetidClass::Udp,
            b"udp6" => NetidClass::Udp6,
            b"rdma" => NetidClass::Rdma,
            b"rdma6" => NetidClass::Rdma6,
            _ => NetidClass::Other,
        }
    }
}

/// One network address: the class of its netid, and where its text is.
#[derive(Clone, Copy, Debug, Default, PartialEq, Eq)]
pub struct Address {
    pub class: NetidClass,
    pub text: Extent,
}

/// `ff_device_versions4`: a way of access that the device offers.
#[derive(Clone, Copy, Debug, Default, PartialEq, Eq)]
pub struct VersionEntry {
    pub version: u32,
    pub minor: u32,
    pub rsize: u32,
    pub wsize: u32,
    pub tight: bool,
}

/// What an accepted device body holds.
#[derive(Clone, Debug, Default, PartialEq, Eq)]
pub struct Device {
    address_count: usize,
    addresses: [Address; ADDRESS_LIMIT as usize],
    version_count: usize,
    versions: [VersionEntry; VERSION_LIMIT as usize],
}

impl Device {
    /// The addresses, in the body's order.
    pub fn addresses(&self) -> &[Address] {
        &self.addresses[..self.address_count]
    }

    /// The version entries, in the body's order.
    pub fn versions(&self) -> &[VersionEntry] {
        &self.versions[..self.version_count]
    }
}

/// Reads a device body: "address count (1 to 8), each a netid (1 to 8 bytes)
/// and an address (1 to 64 bytes); version count (1 to 8), each version,
/// minor, rsize, wsize (4 each) and the tightly-coupled boolean."
pub fn read_device_body(body: &[u8]) -> Result<Device, Refusal> {
    if body.len() > BODY_LIMIT {
        return Err(Refusal::OutsideLimit);
    }
    let mut device = Device::default();
    let mut cursor = Cursor::new(body);
    device.address_count = cursor.count(1..=ADDRESS_LIMIT)? as usize;
    for address in &mut device.addresses[..device.address_count] {
        *address = read_address(&mut cursor, body)?;
    }
    device.version_count = cursor.count(1..=VERSION_LIMIT)? as usize;
    for version in &mut device.versions[..device.version_count] {
        *version = read_version_entry(&mut cursor)?;
    }
    // "nothing may follow"
    cursor.finish()?;
    Ok(device)
}

fn read_address(cursor: &mut Cursor, body: &[u8]) -> Result<Address, Refusal> {
    let netid = cursor.opaque(1..=NETID_LENGTH_LIMIT)?;
    let text = cursor.opaque(1..=ADDRESS_LENGTH_LIMIT)?;
    Ok(Address { class: NetidClass::of(netid.of(body)), text })
}

/// "A version entry is judged after all its five fields are read", so a
/// boolean that is none (7) comes before the entry's rule (12).
fn read_version_entry(cursor: &mut Cursor) -> Result<VersionEntry, Refusal> {
    let entry = VersionEntry {
        version: cursor.uint()?,
        minor: cursor.uint()?,
        rsize: cursor.uint()?,
        wsize: cursor.uint()?,
        tight: cursor.boolean()?,
    };
    if keeps_rule(&entry) {
        Ok(entry)
    } else {
        Err(Refusal::BadVersionEntry)
    }
}

/// "Version 3 has minor 0 and is not tight (RFC 8435); version 4 has minor 0,
/// 1 or 2; sizes are above 0 (ours)." RFC 8435 defines no other version.
fn keeps_rule(entry: &VersionEntry) -> bool {
    let known = match entry.version {
        3 => entry.minor == 0 && !entry.tight,
        4 => entry.minor <= 2,
        _ => false,
    };
    known && entry.rsize > 0 && entry.wsize > 0
}

#[cfg(test)]
mod tests {
    use super::*;
    use crate::samples::bodies::{DevicePlan, VersionPlan};
    use crate::samples::wire::{extended, Item, Opaque};

    fn refusal(body: &[u8]) -> Option<u8> {
        read_device_body(body).err().map(Refusal::number)
    }

    fn entry_refusal(entry: VersionPlan) -> Option<u8> {
        refusal(&DevicePlan::with_versions(&[entry]).encode().bytes)
    }

    #[test]
    fn smallest_body_has_44_bytes() {
        let mut body = vec![0, 0, 0, 1];
        body.extend([0, 0, 0, 1, b'x', 0, 0, 0]);
        body.extend([0, 0, 0, 1, b'y', 0, 0, 0]);
        body.extend([0, 0, 0, 1]);
        body.extend([0, 0, 0, 3, 0, 0, 0, 0, 0, 0, 0, 1, 0, 0, 0, 1, 0, 0, 0, 0]);
        assert_eq!(body.len(), 44);
        let device = read_device_body(&body).unwrap();
        let address = Address { class: NetidClass::Other, text: Extent { start: 16, length: 1 } };
        assert_eq!(device.addresses(), [address]);
        let entry = VersionEntry { version: 3, minor: 0, rsize: 1, wsize: 1, tight: false };
        assert_eq!(device.versions(), [entry]);
        for length in 0..44 {
            assert_eq!(refusal(&body[..length]), Some(1), "cut to {length}");
        }
        assert_eq!(refusal(&extended(&body, &[0])), Some(2));
    }

    #[test]
    fn netids_are_classed_by_their_whole_text() {
        assert_eq!(NetidClass::of(b"tcp"), NetidClass::Tcp);
        assert_eq!(NetidClass::of(b"tcp6"), NetidClass::Tcp6);
        assert_eq!(NetidClass::of(b"udp"), NetidClass::Udp);
        assert_eq!(NetidClass::of(b"udp6"), NetidClass::Udp6);
        assert_eq!(NetidClass::of(b"rdma"), NetidClass::Rdma);
        assert_eq!(NetidClass::of(b"rdma6"), NetidClass::Rdma6);
        for other in [&b"tc"[..], b"TCP", b"tcp66", b"tcp\0", b"rdma66", b"ticlts", b"udp4"] {
            assert_eq!(NetidClass::of(other), NetidClass::Other);
        }
    }

    #[test]
    fn length_is_tested_first_of_all() {
        assert_eq!(refusal(&[0; 2_049]), Some(8));
        let largest_read = extended(&DevicePlan::smallest().encode().bytes, &[0; 2_004]);
        assert_eq!(largest_read.len(), 2_048);
        assert_eq!(refusal(&largest_read), Some(2));
    }

    #[test]
    fn counts_and_lengths_have_their_limits() {
        let wire = DevicePlan::smallest().encode();
        let limits = [
            (Item::AddressCount, 9),
            (Item::LengthOf(Opaque::Netid), 9),
            (Item::LengthOf(Opaque::Address), 65),
            (Item::VersionCount, 9),
        ];
        for (item, above) in limits {
            assert_eq!(refusal(&wire.with_uint(item, 0, 0)), Some(8), "{item:?}");
            assert_eq!(refusal(&wire.with_uint(item, 0, above)), Some(8), "{item:?}");
        }
    }

    #[test]
    fn version_entries_keep_their_rule() {
        assert_eq!(entry_refusal([3, 0, 1, 1, 0]), None);
        assert_eq!(entry_refusal([3, 1, 1, 1, 0]), Some(12));
        assert_eq!(entry_refusal([3, 0, 1, 1, 1]), Some(12));
        for minor in 0..3 {
            assert_eq!(entry_refusal([4, minor, 1, 1, 0]), None);
            assert_eq!(entry_refusal([4, minor, 1, 1, 1]), None);
        }
        assert_eq!(entry_refusal([4, 3, 1, 1, 0]), Some(12));
        assert_eq!(entry_refusal([4, 1, 0, 1, 0]), Some(12));
        assert_eq!(entry_refusal([4, 1, 1, 0, 0]), Some(12));
        for version in [0, 1, 2, 5, u32::MAX] {
            assert_eq!(entry_refusal([version, 0, 1, 1, 0]), Some(12));
        }
    }

    #[test]
    fn a_boolean_is_judged_before_the_entry() {
        assert_eq!(entry_refusal([9, 9, 0, 0, 2]), Some(7));
        let body = DevicePlan::with_versions(&[[9, 9, 0, 0, 2]]).encode().bytes;
        assert_eq!(refusal(&body[..body.len() - 1]), Some(1));
    }
}
