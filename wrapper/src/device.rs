//! Devices, as they came in the reply to GETDEVICEINFO.

use crate::raw::{self, PartRecord, VersionRecord};
use crate::refusal::{accepted, Refusal};
use std::fmt;
use std::ops::BitOr;

#[derive(Clone, Copy, PartialEq, Eq, PartialOrd, Ord, Hash)]
pub struct DeviceId(pub [u8; 16]);

impl fmt::Display for DeviceId {
    fn fmt(&self, f: &mut fmt::Formatter) -> fmt::Result {
        self.0.iter().try_for_each(|byte| write!(f, "{byte:02x}"))
    }
}

impl fmt::Debug for DeviceId {
    fn fmt(&self, f: &mut fmt::Formatter) -> fmt::Result {
        write!(f, "DeviceId({self})")
    }
}

/// The 16 bytes at an offset that the core answered.
pub(crate) fn id_at(body: &[u8], at: usize) -> DeviceId {
    DeviceId(*body[at..].first_chunk().expect("the core answers a place with 16 bytes behind it"))
}

/// The bytes that the core answered the offset of.
pub(crate) fn part(body: &[u8], part: PartRecord) -> &[u8] {
    &body[part.start..][..part.length]
}

/// The class of a netid.
#[derive(Clone, Copy, Debug, PartialEq, Eq, Hash)]
pub enum Netid {
    Other = 0,
    Tcp = 1,
    Tcp6 = 2,
    Udp = 3,
    Udp6 = 4,
    Rdma = 5,
    Rdma6 = 6,
}

impl Netid {
    fn from_class(class: u32) -> Netid {
        match class {
            1 => Netid::Tcp,
            2 => Netid::Tcp6,
            3 => Netid::Udp,
            4 => Netid::Udp6,
            5 => Netid::Rdma,
            6 => Netid::Rdma6,
            _ => Netid::Other,
        }
    }
}

/// Where a device is reached.
#[derive(Clone, Copy, Debug, PartialEq, Eq)]
pub struct Address<'a> {
    pub netid: Netid,
    /// The universal address, as on the wire.
    pub text: &'a [u8],
}

/// A version of NFS that a device speaks.
#[derive(Clone, Copy, Debug, PartialEq, Eq)]
pub struct Version {
    pub version: u32,
    pub minor: u32,
    /// The largest read in bytes.
    pub rsize: u32,
    /// The largest write in bytes.
    pub wsize: u32,
    /// Whether the device is tightly coupled with the metadata server.
    pub tight: bool,
}

impl Version {
    pub(crate) fn of(record: VersionRecord) -> Version {
        let VersionRecord { version, minor, rsize, wsize, tight } = record;
        Version { version, minor, rsize, wsize, tight: tight == 1 }
    }
}

/// A set of versions of NFS: those that the client speaks.
#[derive(Clone, Copy, Debug, PartialEq, Eq, Hash)]
pub struct Versions(u32);

impl Versions {
    pub const NFS3: Versions = Versions(1);
    pub const NFS40: Versions = Versions(2);
    pub const NFS41: Versions = Versions(4);
    pub const NFS42: Versions = Versions(8);

    pub(crate) fn bits(self) -> u32 {
        self.0
    }
}

impl BitOr for Versions {
    type Output = Versions;

    fn bitor(self, other: Versions) -> Versions {
        Versions(self.0 | other.0)
    }
}

/// A device body (`ff_device_addr4`) that was read, with the device id that it was fetched under.
#[derive(Clone, Debug, PartialEq, Eq)]
pub struct Device<'a> {
    pub(crate) id: DeviceId,
    pub(crate) body: &'a [u8],
    pub addresses: Vec<Address<'a>>,
    pub versions: Vec<Version>,
}

impl<'a> Device<'a> {
    pub fn read(fetched_under: DeviceId, body: &'a [u8]) -> Result<Self, Refusal> {
        let read = raw::read_device(body);
        accepted(read.refusal)?;
        let addresses = read.addresses.into_iter().take(read.address_count as usize);
        let versions = read.versions.into_iter().take(read.version_count as usize);
        Ok(Device {
            id: fetched_under,
            body,
            addresses: addresses
                .map(|a| Address { netid: Netid::from_class(a.class), text: part(body, a.text) })
                .collect(),
            versions: versions.map(Version::of).collect(),
        })
    }

    /// The device id that the body was fetched under.
    pub fn id(&self) -> DeviceId {
        self.id
    }
}
