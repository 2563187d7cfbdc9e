//! What layout, device and report bodies hold, and their bytes.

use super::wire::{pattern, Item, Opaque, Wire};
use crate::report::DeviceError;

/// What one data server of a layout body holds.
#[derive(Clone, Debug, PartialEq, Eq)]
pub struct ServerPlan {
    pub device_id: [u8; 16],
    pub efficiency: u32,
    pub stateid: [u8; 16],
    pub filehandles: Vec<Vec<u8>>,
    pub user: Vec<u8>,
    pub group: Vec<u8>,
}

impl ServerPlan {
    /// The smallest server: 56 bytes.
    pub fn smallest(number: u8) -> Self {
        ServerPlan {
            device_id: device_id(number),
            efficiency: u32::from(number),
            stateid: [0; 16],
            filehandles: vec![vec![number | 128]],
            user: Vec::new(),
            group: Vec::new(),
        }
    }

    /// A server whose opaque items have the given lengths.
    pub fn sized(number: u8, filehandles: &[usize], user: usize, group: usize) -> Self {
        let filehandle = |(place, &length)| pattern(number.wrapping_add(place as u8), length);
        ServerPlan {
            filehandles: filehandles.iter().enumerate().map(filehandle).collect(),
            user: pattern(number.wrapping_add(100), user),
            group: pattern(number.wrapping_add(200), group),
            ..ServerPlan::smallest(number)
        }
    }

    fn encode(&self, wire: &mut Wire) {
        wire.fixed(Item::DeviceId, &self.device_id);
        wire.uint(Item::Efficiency, self.efficiency);
        wire.fixed(Item::Stateid, &self.stateid);
        wire.uint(Item::FilehandleCount, self.filehandles.len() as u32);
        for filehandle in &self.filehandles {
            wire.opaque(Opaque::Filehandle, filehandle);
        }
        wire.opaque(Opaque::User, &self.user);
        wire.opaque(Opaque::Group, &self.group);
    }
}

/// What a layout body holds.
#[derive(Clone, Debug, PartialEq, Eq)]
pub struct LayoutPlan {
    pub unit: u64,
    pub mirrors: Vec<Vec<ServerPlan>>,
    pub flags: u32,
    pub hint: u32,
}

impl LayoutPlan {
    /// Mirrors of equal server counts, made of smallest servers.
    pub fn plain(mirrors: usize, servers: usize) -> Self {
        let number = |mirror: usize, stripe: usize| (mirror * servers + stripe + 1) as u8;
        let mirror = |m| (0..servers).map(|s| ServerPlan::smallest(number(m, s))).collect();
        LayoutPlan {
            unit: if servers > 1 { 4_096 } else { 0 },
            mirrors: (0..mirrors).map(mirror).collect(),
            flags: 0,
            hint: 0,
        }
    }

    /// One mirror of one server.
    pub fn of_server(server: ServerPlan) -> Self {
        LayoutPlan { unit: 0, mirrors: vec![vec![server]], flags: 0, hint: 0 }
    }

    /// Smallest servers of these efficiencies: a row for each mirror, and in it
    /// a number for each stripe.
    pub fn of_efficiencies(rows: &[impl AsRef<[u32]>]) -> Self {
        let servers = rows.first().map_or(0, |row| row.as_ref().len());
        let mut plan = LayoutPlan::plain(rows.len(), servers);
        for (mirror, row) in plan.mirrors.iter_mut().zip(rows) {
            for (server, &efficiency) in mirror.iter_mut().zip(row.as_ref()) {
                server.efficiency = efficiency;
            }
        }
        plan
    }

    /// Two mirrors of two servers with every padding from 0 to 3.
    pub fn two_by_two() -> Self {
        let mirror =
            |first: u8| vec![ServerPlan::sized(first, &[5, 4], 3, 2), ServerPlan::sized(first + 1, &[7, 6], 1, 4)];
        LayoutPlan { unit: 65_536, mirrors: vec![mirror(1), mirror(3)], flags: 9, hint: 30 }
    }

    pub fn encode(&self) -> Wire {
        let mut wire = Wire::default();
        wire.uhyper(Item::Unit, self.unit);
        wire.uint(Item::MirrorCount, self.mirrors.len() as u32);
        for mirror in &self.mirrors {
            wire.uint(Item::ServerCount, mirror.len() as u32);
            mirror.iter().for_each(|server| server.encode(&mut wire));
        }
        wire.uint(Item::Flags, self.flags);
        wire.uint(Item::Hint, self.hint);
        wire
    }
}

/// Gives each mirror's first server its efficiency, and the others what is left
/// of 2^32 - 1: the highest at stripe 0 is the lowest at every other stripe, so
/// that the best mirror changes with the stripe, unless all are alike.
pub fn with_efficiencies(mut plan: LayoutPlan, efficiencies: &[u32]) -> LayoutPlan {
    for (mirror, &efficiency) in plan.mirrors.iter_mut().zip(efficiencies) {
        for (stripe, server) in mirror.iter_mut().enumerate() {
            server.efficiency = if stripe == 0 { efficiency } else { u32::MAX - efficiency };
        }
    }
    plan
}

/// What a `layout4` holds in front of its body.
#[derive(Clone, Copy, Debug, PartialEq, Eq)]
pub struct Layout4Head {
    pub offset: u64,
    pub length: u64,
    pub iomode: u32,
    pub layout_type: u32,
}

impl Layout4Head {
    /// The whole file for reading and writing.
    pub fn whole_file() -> Self {
        Layout4Head { offset: 0, length: u64::MAX, iomode: 2, layout_type: 4 }
    }

    /// A `layout4` with the body's own length and padding.
    pub fn around(&self, body: &[u8]) -> Vec<u8> {
        let padding = body.len().next_multiple_of(4) - body.len();
        let mut bytes = self.claiming(body.len() as u32, body);
        bytes.extend(&[0; 3][..padding]);
        bytes
    }

    /// A `layout4` whose body length need not be true.
    pub fn claiming(&self, body_length: u32, behind: &[u8]) -> Vec<u8> {
        let mut bytes = Vec::new();
        bytes.extend(self.offset.to_be_bytes());
        bytes.extend(self.length.to_be_bytes());
        bytes.extend(self.iomode.to_be_bytes());
        bytes.extend(self.layout_type.to_be_bytes());
        bytes.extend(body_length.to_be_bytes());
        bytes.extend(behind);
        bytes
    }
}

/// A version entry as its five numbers.
pub type VersionPlan = [u32; 5];

/// Version 3 and the three minor versions of version 4, none of them tight.
pub const LOOSE_VERSIONS: [VersionPlan; 4] =
    [[3, 0, 1_048_576, 524_288, 0], [4, 0, 65_536, 32_768, 0], [4, 1, 262_144, 131_072, 0], [4, 2, 4_096, 8_192, 0]];

/// The three minor versions of version 4, tightly coupled.
pub const TIGHT_VERSIONS: [VersionPlan; 3] =
    [[4, 0, 65_536, 32_768, 1], [4, 1, 262_144, 131_072, 1], [4, 2, 4_096, 8_192, 1]];

/// What a device body holds.
#[derive(Clone, Debug, PartialEq, Eq)]
pub struct DevicePlan {
    /// Netid and address of each network address.
    pub addresses: Vec<(Vec<u8>, Vec<u8>)>,
    pub versions: Vec<VersionPlan>,
}

impl DevicePlan {
    /// One address of one byte each and one version 3 entry: 44 bytes.
    pub fn smallest() -> Self {
        DevicePlan { addresses: vec![(b"x".to_vec(), b"y".to_vec())], versions: vec![[3, 0, 1, 1, 0]] }
    }

    /// One TCP address and the given versions.
    pub fn with_versions(versions: &[VersionPlan]) -> Self {
        let addresses = vec![(b"tcp".to_vec(), b"10.99.0.1.8.1".to_vec())];
        DevicePlan { addresses, versions: versions.to_vec() }
    }

    pub fn encode(&self) -> Wire {
        let mut wire = Wire::default();
        wire.uint(Item::AddressCount, self.addresses.len() as u32);
        for (netid, address) in &self.addresses {
            wire.opaque(Opaque::Netid, netid);
            wire.opaque(Opaque::Address, address);
        }
        wire.uint(Item::VersionCount, self.versions.len() as u32);
        for [version, minor, rsize, wsize, tight] in &self.versions {
            wire.uint(Item::Version, *version);
            wire.uint(Item::Minor, *minor);
            wire.uint(Item::Rsize, *rsize);
            wire.uint(Item::Wsize, *wsize);
            wire.uint(Item::Tight, *tight);
        }
        wire
    }
}

/// What one error report holds.
#[derive(Clone, Debug, PartialEq, Eq)]
pub struct ReportPlan {
    pub offset: u64,
    pub length: u64,
    pub stateid: [u8; 16],
    pub errors: Vec<DeviceError>,
}

impl ReportPlan {
    /// A report of the given number of good errors.
    pub fn with_errors(number: u8, errors: usize) -> Self {
        ReportPlan {
            offset: u64::from(number) * 4_096,
            length: 4_096,
            stateid: fixed_pattern(number.wrapping_add(50)),
            errors: (0..errors).map(|place| good_error(number, place)).collect(),
        }
    }
}

/// An error that keeps the rule; operations and statuses vary.
pub fn good_error(number: u8, place: usize) -> DeviceError {
    DeviceError {
        device_id: device_id(number.wrapping_add(place as u8)),
        status: [5, 10_001, 1, u32::MAX][place % 4],
        operation: [25, 38, 5][place % 3],
    }
}

/// The body of an `ff_layoutreturn4` with these reports.
pub fn encode_reports(reports: &[ReportPlan], statistics_count: u32) -> Wire {
    let mut wire = Wire::default();
    wire.uint(Item::ReportCount, reports.len() as u32);
    for report in reports {
        wire.uhyper(Item::Offset, report.offset);
        wire.uhyper(Item::Length, report.length);
        wire.fixed(Item::Stateid, &report.stateid);
        wire.uint(Item::ErrorCount, report.errors.len() as u32);
        for error in &report.errors {
            wire.fixed(Item::DeviceId, &error.device_id);
            wire.uint(Item::Status, error.status);
            wire.uint(Item::Operation, error.operation);
        }
    }
    wire.uint(Item::StatisticsCount, statistics_count);
    wire
}

/// The device id of a server, different for each number.
pub fn device_id(number: u8) -> [u8; 16] {
    fixed_pattern(number)
}

/// Sixteen bytes, none of them 0.
pub fn fixed_pattern(number: u8) -> [u8; 16] {
    let mut id = [0; 16];
    id.copy_from_slice(&pattern(number, 16));
    id
}
