//! Binding one data server of a layout to its device.

use crate::device::{read_device_body, VersionEntry};
use crate::layout::{read_layout_body, read_server_at, Server};
use crate::refusal::Refusal;
use crate::xdr::Extent;

/// The versions that the caller can use: "bits 1, 2, 4, 8 for 3, 4.0, 4.1,
/// 4.2".
#[derive(Clone, Copy, Debug, PartialEq, Eq)]
pub struct SupportedVersions(u32);

impl SupportedVersions {
    /// 8 where "a binding's spoken set is above 15".
    pub fn new(bits: u32) -> Result<Self, Refusal> {
        if bits <= 15 {
            Ok(SupportedVersions(bits))
        } else {
            Err(Refusal::OutsideLimit)
        }
    }

    /// Whether an accepted version entry is among them.
    pub fn includes(self, entry: &VersionEntry) -> bool {
        let bit = match (entry.version, entry.minor) {
            (3, 0) => 1,
            (4, 0) => 2,
            (4, 1) => 4,
            (4, 2) => 8,
            _ => 0,
        };
        self.0 & bit != 0
    }
}

/// "Given a layout body, a mirror and stripe number, a device body, the device
/// id it was fetched under and the set of spoken versions".
#[derive(Clone, Copy, Debug, PartialEq, Eq)]
pub struct BindRequest<'a> {
    pub mirror: u32,
    pub stripe: u32,
    pub supported_versions: u32,
    pub device_id: [u8; 16],
    pub layout_body: &'a [u8],
    pub device_body: &'a [u8],
}

/// "If tight, the stateid is used and user and group are not; else the
/// reverse."
#[derive(Clone, Copy, Debug, PartialEq, Eq)]
pub enum Identity {
    Tight { stateid: Extent },
    Loose { user: Extent, group: Extent },
}

/// How to reach the server; offsets are counted from the layout body's first
/// byte.
#[derive(Clone, Copy, Debug, PartialEq, Eq)]
pub struct Binding {
    pub entry_number: usize,
    pub entry: VersionEntry,
    pub filehandle: Extent,
    pub identity: Identity,
}

/// Binds a server: "Check layout body, device body, 16, 8, 13, 14, 15."
pub fn bind(request: &BindRequest) -> Result<Binding, Refusal> {
    let layout = read_layout_body(request.layout_body)?;
    let device = read_device_body(request.device_body)?;
    let start = layout.start(request.mirror, request.stripe)?;
    let supported = SupportedVersions::new(request.supported_versions)?;
    let server = read_server_at(request.layout_body, start)?;
    check_device(&server, &request.device_id, device.versions())?;
    let (entry_number, entry) = choose_entry(device.versions(), supported)?;
    check_stateid(entry, server.stateid.of(request.layout_body))?;
    Ok(Binding {
        entry_number,
        entry: *entry,
        // Check 13 has made the two counts equal, so there is one at its index.
        filehandle: server.filehandles[entry_number],
        identity: identity_of(&server, entry),
    })
}

/// 13 "device id, or filehandle and version counts, differ in binding". RFC
/// 8435: "There MUST be exactly as many elements in ffds_fh_vers as there are
/// in ffda_versions."
fn check_device(server: &Server, device_id: &[u8; 16], versions: &[VersionEntry]) -> Result<(), Refusal> {
    let counts_agree = server.filehandle_count as usize == versions.len();
    if server.device_id == *device_id && counts_agree {
        Ok(())
    } else {
        Err(Refusal::DeviceDiffers)
    }
}

/// "The first device entry spoken is chosen, and the filehandle at its place."
fn choose_entry(versions: &[VersionEntry], supported: SupportedVersions) -> Result<(usize, &VersionEntry), Refusal> {
    versions.iter().enumerate().find(|(_, entry)| supported.includes(entry)).ok_or(Refusal::NoSupportedVersion)
}

/// 15 "the chosen entry is version 4, not tight, and the server's stateid is
/// not 16 zero bytes".
fn check_stateid(entry: &VersionEntry, stateid: &[u8]) -> Result<(), Refusal> {
    let anonymous = stateid.iter().all(|&byte| byte == 0);
    if entry.version == 4 && !entry.tight && !anonymous {
        Err(Refusal::StateidNotAnonymous)
    } else {
        Ok(())
    }
}

fn identity_of(server: &Server, entry: &VersionEntry) -> Identity {
    if entry.tight {
        Identity::Tight { stateid: server.stateid }
    } else {
        Identity::Loose { user: server.user, group: server.group }
    }
}

#[cfg(test)]
mod tests {
    use super::*;
    use crate::samples::bodies::{
        fixed_pattern, DevicePlan, LayoutPlan, ServerPlan, VersionPlan, LOOSE_VERSIONS, TIGHT_VERSIONS,
    };

    /// One server with a filehandle for each version, bound to its device.
    struct Scene {
        server: ServerPlan,
        versions: Vec<VersionPlan>,
        mirror: u32,
        stripe: u32,
        supported_versions: u32,
    }

    impl Scene {
        fn new(versions: &[VersionPlan], supported_versions: u32) -> Self {
            let lengths = &[4, 5, 6, 7, 8, 9, 10, 11][..versions.len()];
            let server = ServerPlan::sized(1, lengths, 3, 2);
            Scene { server, versions: versions.to_vec(), mirror: 0, stripe: 0, supported_versions }
        }

        fn bind(&self) -> Result<Binding, Refusal> {
            bind(&BindRequest {
                mirror: self.mirror,
                stripe: self.stripe,
                supported_versions: self.supported_versions,
                device_id: ServerPlan::smallest(1).device_id,
                layout_body: &LayoutPlan::of_server(self.server.clone()).encode().bytes,
                device_body: &DevicePlan::with_versions(&self.versions).encode().bytes,
            })
        }

        fn refusal(&self) -> Option<u8> {
            self.bind().err().map(Refusal::number)
        }
    }

    #[test]
    fn the_first_supported_entry_is_chosen() {
        for (supported, expected) in [(15, 0), (14, 1), (12, 2), (8, 3), (10, 1), (9, 0)] {
            let binding = Scene::new(&LOOSE_VERSIONS, supported).bind().unwrap();
            assert_eq!(binding.entry_number, expected);
        }
    }

    #[test]
    fn loose_uses_user_and_group() {
        let binding = Scene::new(&LOOSE_VERSIONS, 2).bind().unwrap();
        // The filehandles start at 56: 4+4, then the second at 64 with length in front.
        assert_eq!(binding.filehandle, Extent { start: 68, length: 5 });
        assert_eq!((binding.entry.version, binding.entry.minor), (4, 0));
        // 4+8, 4+8, 4+8 more filehandle bytes, then 4 of the user's length.
        let user = Extent { start: 104, length: 3 };
        let group = Extent { start: 112, length: 2 };
        assert_eq!(binding.identity, Identity::Loose { user, group });
    }

    #[test]
    fn tight_uses_the_stateid() {
        let mut scene = Scene::new(&TIGHT_VERSIONS, 4);
        scene.server.stateid = fixed_pattern(3);
        let binding = scene.bind().unwrap();
        assert_eq!(binding.entry_number, 1);
        let stateid = Extent { start: 36, length: 16 };
        assert_eq!(binding.identity, Identity::Tight { stateid });
    }

    #[test]
    fn refusals_come_in_their_order() {
        let mut scene = Scene::new(&LOOSE_VERSIONS[1..], 31);
        scene.server.device_id[15] ^= 1;
        scene.server.stateid[15] = 1;
        scene.mirror = 1;
        assert_eq!(scene.refusal(), Some(16));
        scene.mirror = 0;
        scene.stripe = 1;
        assert_eq!(scene.refusal(), Some(16));
        scene.stripe = 0;
        assert_eq!(scene.refusal(), Some(8));
        scene.supported_versions = 1;
        assert_eq!(scene.refusal(), Some(13));
        scene.server.device_id[15] ^= 1;
        assert_eq!(scene.refusal(), Some(14));
        scene.supported_versions = 15;
        assert_eq!(scene.refusal(), Some(15));
        scene.server.stateid[15] = 0;
        assert_eq!(scene.refusal(), None);
    }

    #[test]
    fn filehandles_and_versions_are_as_many() {
        let mut scene = Scene::new(&LOOSE_VERSIONS, 15);
        scene.server.filehandles.pop();
        assert_eq!(scene.refusal(), Some(13));
    }

    #[test]
    fn version_3_takes_any_stateid() {
        let mut scene = Scene::new(&LOOSE_VERSIONS, 1);
        scene.server.stateid = fixed_pattern(3);
        assert_eq!(scene.refusal(), None);
    }

    #[test]
    fn no_later_entry_helps_after_15() {
        let mut scene = Scene::new(&[LOOSE_VERSIONS[1], TIGHT_VERSIONS[1]], 15);
        scene.server.stateid[0] = 1;
        assert_eq!(scene.refusal(), Some(15));
    }

    #[test]
    fn the_bodies_are_read_first() {
        let layout_body = LayoutPlan::plain(1, 1).encode().bytes;
        let device_body = DevicePlan::smallest().encode().bytes;
        let request = BindRequest {
            mirror: 9,
            stripe: 9,
            supported_versions: 99,
            device_id: [0; 16],
            layout_body: &layout_body[..79],
            device_body: &[0; 2_049],
        };
        assert_eq!(bind(&request), Err(Refusal::BytesRunOut));
        let request = BindRequest { layout_body: &layout_body, ..request };
        assert_eq!(bind(&request), Err(Refusal::OutsideLimit));
        let request = BindRequest { device_body: &device_body, ..request };
        assert_eq!(bind(&request), Err(Refusal::BeyondLayout));
    }
}
