//! Captured layouts and devices through the safe types, and bound to each other. The expected values are those that
//! Wireshark's dissector read, in captures/patched-server/index.json.

use basilothyn::{
    Address, Binding, Device, DeviceId, Identity, Iomode, Layout, Layout4, Layouts, MirrorNumber, Netid, Refusal,
    StripeNumber, Version, Versions,
};

const LAYOUT4: &[u8] = include_bytes!("../../captures/patched-server/P2_3mirrors_multi_lg000_0.bin");
const DEVICE: &[u8] = include_bytes!("../../captures/patched-server/P2_3mirrors_multi_gd000.bin");

const FILEHANDLE: [u8; 20] = [1, 0, 1, 1, 1, 0, 0, 0, 9, 0xcd, 0x87, 0xd1, 3, 0, 0, 0, 0, 0, 0, 0];
const V3: Version = Version { version: 3, minor: 0, rsize: 65_536, wsize: 32_768, tight: false };
const V41: Version = Version { version: 4, minor: 1, rsize: 131_072, wsize: 65_536, tight: false };
const STRIPE: StripeNumber = StripeNumber(0);

/// The device id of mirror `number` in the capture.
fn id(number: u8) -> DeviceId {
    DeviceId([1, 0, 0, 0, 0, 0, 0, 0, number, 0, 0, 0, 0, 0, 0, 0])
}

fn layout() -> Layout<'static> {
    Layout4::read(LAYOUT4).expect("a captured layout").layout
}

fn device(fetched_under: DeviceId) -> Device<'static> {
    Device::read(fetched_under, DEVICE).expect("a captured device")
}

#[test]
fn a_layout_is_what_the_dissector_read() {
    let read = Layout4::read(LAYOUT4).expect("a captured layout");
    assert_eq!((read.offset, read.length, read.last, read.iomode), (0, u64::MAX, u64::MAX, Iomode::ReadWrite));
    let layout = read.layout;
    assert_eq!((layout.unit(), layout.mirror_count(), layout.server_count()), (0, 3, 1));
    assert_eq!(layout.statistics_hint(), 60);
    // Flags 3.
    let flags = layout.flags();
    assert!(flags.no_layoutcommit() && flags.no_io_thru_mds());
    assert!(!flags.no_read_io() && !flags.write_one_mirror());
    let read: Vec<_> = layout.mirrors().map(|m| (layout.device_id(m, STRIPE), layout.efficiency(m, STRIPE))).collect();
    assert_eq!(read, [(Some(id(0)), Some(3)), (Some(id(1)), Some(3)), (Some(id(2)), Some(7))]);
    assert_eq!(layout.stripes().collect::<Vec<_>>(), [STRIPE]);
    assert_eq!(Layout::read(layout.body()), Ok(layout));
}

#[test]
fn beyond_the_layout_is_no_data_server() {
    for (mirror, stripe) in [(3, 0), (0, 1), (u32::MAX, 0), (0, u32::MAX)] {
        let (mirror, stripe) = (MirrorNumber(mirror), StripeNumber(stripe));
        assert_eq!(layout().device_id(mirror, stripe), None);
        assert_eq!(layout().efficiency(mirror, stripe), None);
        assert_eq!(layout().bind(mirror, stripe, &device(id(0)), Versions::NFS3), Err(Refusal::BeyondLayout));
    }
}

#[test]
fn a_device_is_what_the_dissector_read() {
    let device = device(id(0));
    let addresses = [
        Address { netid: Netid::Tcp, text: b"10.99.0.3.8.1" },
        Address { netid: Netid::Tcp6, text: b"fd00:99::3.8.1" },
    ];
    assert_eq!(device.addresses, addresses);
    assert_eq!(device.versions, [V3, V41]);
    assert_eq!(device.id(), id(0));
    assert_eq!(Device::read(id(0), &DEVICE[..DEVICE.len() - 1]), Err(Refusal::BytesRunOut));
}

/// A device with one address of a netid, and version 3 with sizes of 1.
fn body_with_netid(netid: &[u8]) -> Vec<u8> {
    let mut body = vec![0, 0, 0, 1, 0, 0, 0, netid.len() as u8];
    body.extend(netid);
    body.resize(body.len().next_multiple_of(4), 0);
    body.extend([0, 0, 0, 1, b'a', 0, 0, 0]);
    for number in [1, 3, 0, 1, 1, 0] {
        body.extend([0, 0, 0, number]);
    }
    body
}

#[test]
fn a_netid_is_classed() {
    let classes: [(&[u8], Netid); 8] = [
        (b"tcp", Netid::Tcp),
        (b"tcp6", Netid::Tcp6),
        (b"udp", Netid::Udp),
        (b"udp6", Netid::Udp6),
        (b"rdma", Netid::Rdma),
        (b"rdma6", Netid::Rdma6),
        (b"TCP", Netid::Other),
        (b"tcp7", Netid::Other),
    ];
    for (netid, class) in classes {
        let body = body_with_netid(netid);
        let device = Device::read(id(0), &body).expect("a device");
        assert_eq!(device.addresses, [Address { netid: class, text: b"a" }]);
    }
}

#[test]
fn the_first_version_that_is_spoken_is_bound() {
    let owner = Identity::Owner { user: b"0", group: b"0" };
    let bound = |entry, version| Binding { entry, version, filehandle: &FILEHANDLE, identity: owner };
    let bind = |supported| layout().bind(MirrorNumber(0), STRIPE, &device(id(0)), supported);
    assert_eq!(bind(Versions::NFS3), Ok(bound(0, V3)));
    assert_eq!(bind(Versions::NFS41), Ok(bound(1, V41)));
    assert_eq!(bind(Versions::NFS41 | Versions::NFS3 | Versions::NFS42), Ok(bound(0, V3)));
    assert_eq!(bind(Versions::NFS40 | Versions::NFS42), Err(Refusal::NoSupportedVersion));
}

#[test]
fn a_device_that_was_fetched_under_another_id_is_not_bound() {
    let bind =
        |mirror, fetched_under| layout().bind(MirrorNumber(mirror), STRIPE, &device(fetched_under), Versions::NFS3);
    assert_eq!(bind(0, id(1)), Err(Refusal::BindingDiffers));
    assert_eq!(bind(1, id(0)), Err(Refusal::BindingDiffers));
    assert!(bind(1, id(1)).is_ok());
}

/// The captured device with its second entry tightly coupled: the last byte is that boolean's.
#[test]
fn a_tightly_coupled_server_gets_the_stateid() {
    let mut body = DEVICE.to_vec();
    *body.last_mut().expect("bytes") = 1;
    let device = Device::read(id(2), &body).expect("a device");
    let bound = layout().bind(MirrorNumber(2), STRIPE, &device, Versions::NFS41).expect("a version");
    assert_eq!((bound.entry, bound.version), (1, Version { tight: true, ..V41 }));
    assert_eq!((bound.filehandle, bound.identity), (&FILEHANDLE[..], Identity::Stateid([0; 16])));
}

/// A read names the mirror of the highest efficiency, 7, a write all three; every mirror of the layout can be bound.
#[test]
fn another_mirror_may_serve_a_read() {
    let mut layouts = Layouts::default();
    assert_eq!(layouts.grant(LAYOUT4), Ok(()));
    let read = layouts.locate_read(4_096, 1).expect("a right");
    assert_eq!(read.mirrors.iter().collect::<Vec<_>>(), [MirrorNumber(2)]);
    assert!(read.mirrors.contains(MirrorNumber(2)));
    for other in [MirrorNumber(0), MirrorNumber(3), MirrorNumber(31), MirrorNumber(32), MirrorNumber(u32::MAX)] {
        assert!(!read.mirrors.contains(other), "mirror {other}");
    }
    let write = layouts.locate_write(4_096, 1).expect("a right");
    let layout = layouts.layout(write.slot).expect("a body");
    assert!(write.mirrors.iter().eq(layout.mirrors()));
    for mirror in layout.mirrors() {
        let device = device(layout.device_id(mirror, read.stripe).expect("a data server"));
        assert!(layout.bind(mirror, read.stripe, &device, Versions::NFS3).is_ok(), "mirror {mirror}");
    }
}

#[test]
fn a_device_id_is_shown_in_hexadecimal() {
    assert_eq!(id(2).to_string(), "01000000000000000200000000000000");
    assert_eq!(format!("{:?}", id(2)), "DeviceId(01000000000000000200000000000000)");
}
