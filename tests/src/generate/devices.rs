//! Cases of device bodies.

use independent::cases::{kind, CaseFileWriter};
use independent::samples::bodies::{DevicePlan, VersionPlan, LOOSE_VERSIONS, TIGHT_VERSIONS};
use independent::samples::random::Random;
use independent::samples::wire::{extended, overwritten, pattern, Item, Opaque};

const NETIDS: [&[u8]; 32] = [
    b"tcp",
    b"tcp6",
    b"udp",
    b"udp6",
    b"rdma",
    b"rdma6",
    b"t",
    b"tc",
    b"u",
    b"ud",
    b"r",
    b"rd",
    b"rdm",
    b"TCP",
    b"Tcp",
    b"tcP6",
    b"UDP6",
    b"RDMA",
    b"tcp7",
    b"tcp66",
    b"udp66",
    b"rdma66",
    b"rdma5",
    b" tcp",
    b"tcp ",
    b"tcp\0",
    b"udp\0\0",
    b"pct",
    b"sctp",
    b"ticlts",
    b"ticotsor",
    b"\xff\xfe",
];

pub fn add(cases: &mut CaseFileWriter) {
    for body in all_bodies() {
        cases.record(kind::DEVICE, &body);
    }
}

fn all_bodies() -> Vec<Vec<u8>> {
    let mut bodies = Vec::new();
    add_shapes(&mut bodies);
    add_netids(&mut bodies);
    add_lengths(&mut bodies);
    add_version_entries(&mut bodies);
    add_booleans(&mut bodies);
    add_cuts(&mut bodies);
    add_limits(&mut bodies);
    add_true_counts_past_the_limit(&mut bodies);
    add_padding(&mut bodies);
    add_sizes(&mut bodies);
    add_damage(&mut bodies);
    bodies
}

/// A device of so many addresses and versions, all of them different.
fn shaped(addresses: usize, versions: usize) -> DevicePlan {
    let all_versions = [&TIGHT_VERSIONS[..], &LOOSE_VERSIONS].concat();
    let address = |place: usize| (NETIDS[place].to_vec(), pattern(place as u8, place * 5 + 7));
    let version = |place: usize| all_versions[place % all_versions.len()];
    DevicePlan { addresses: (0..addresses).map(address).collect(), versions: (0..versions).map(version).collect() }
}

/// Two addresses with padding of 1 and 3 bytes and of 2 and 1, two versions.
fn two_by_two() -> DevicePlan {
    DevicePlan {
        addresses: vec![
            (b"tcp".to_vec(), b"10.99.0.1.8.1".to_vec()),
            (b"rdma66".to_vec(), b"fd00:99::1.8.1x".to_vec()),
        ],
        versions: vec![LOOSE_VERSIONS[0], TIGHT_VERSIONS[2]],
    }
}

fn add_shapes(bodies: &mut Vec<Vec<u8>>) {
    for addresses in 1..=8 {
        for versions in 1..=8 {
            if addresses == 1 || versions == 1 || addresses == versions || addresses == 8 {
                bodies.push(shaped(addresses, versions).encode().bytes);
            }
        }
    }
    let longest =
        DevicePlan { addresses: vec![(pattern(1, 8), pattern(2, 64)); 8], versions: vec![TIGHT_VERSIONS[1]; 8] };
    bodies.push(longest.encode().bytes);
}

fn add_netids(bodies: &mut Vec<Vec<u8>>) {
    for netid in NETIDS {
        let addresses = vec![(netid.to_vec(), b"192.0.2.7.8.1".to_vec())];
        bodies.push(DevicePlan { addresses, ..DevicePlan::smallest() }.encode().bytes);
    }
}

fn add_lengths(bodies: &mut Vec<Vec<u8>>) {
    for length in 1..=64 {
        let netid = pattern(length as u8, (length - 1) % 8 + 1);
        let addresses = vec![(netid, pattern(3, length))];
        bodies.push(DevicePlan { addresses, ..DevicePlan::smallest() }.encode().bytes);
    }
}

/// Entries that keep and that break the rule, first and after a good one.
fn add_version_entries(bodies: &mut Vec<Vec<u8>>) {
    let mut entries: Vec<VersionPlan> = Vec::new();
    for version in [0, 1, 2, 3, 4, 5, 259, 260, 1 << 26, u32::MAX] {
        entries.push([version, 0, 1, 1, 0]);
    }
    for minor in [1, 2, 3, 256, u32::MAX] {
        entries.extend([[3, minor, 1, 1, 0], [4, minor, 1, 1, 0], [4, minor, 1, 1, 1]]);
    }
    entries.extend([[3, 0, 1, 1, 1], [4, 0, 1, 1, 1], [3, 0, 0, 1, 0], [3, 0, 1, 0, 0]]);
    entries.extend([[4, 1, 0, 1, 1], [4, 1, 1, 0, 0], [4, 2, 0, 0, 1]]);
    entries.extend([[3, 0, u32::MAX, u32::MAX, 0], [4, 2, 1 << 31, 1 << 8, 1]]);
    for entry in entries {
        bodies.push(DevicePlan::with_versions(&[entry]).encode().bytes);
        bodies.push(DevicePlan::with_versions(&[LOOSE_VERSIONS[2], entry]).encode().bytes);
    }
}

/// 7, and that it is before 12 but after earlier entries' 12.
fn add_booleans(bodies: &mut Vec<Vec<u8>>) {
    for tight in [2, 3, 255, 256, 1 << 24, 1 << 31, u32::MAX] {
        for entry in [[4, 1, 1, 1, tight], [3, 0, 1, 1, tight], [9, 9, 0, 0, tight]] {
            bodies.push(DevicePlan::with_versions(&[entry]).encode().bytes);
        }
        let bad = [5, 0, 1, 1, 0];
        let late = DevicePlan::with_versions(&[bad, [4, 1, 1, 1, tight]]).encode().bytes;
        bodies.push(late);
    }
    let bad = DevicePlan::with_versions(&[[9, 9, 0, 0, 2]]).encode().bytes;
    for missing in 1..=20 {
        bodies.push(bad[..bad.len() - missing].to_vec());
    }
    bodies.push(extended(&bad, &[0]));
}

fn add_cuts(bodies: &mut Vec<Vec<u8>>) {
    let smallest = DevicePlan::smallest().encode().bytes;
    bodies.extend((0..smallest.len()).map(|length| smallest[..length].to_vec()));
    let larger = two_by_two().encode();
    let quarters = (0..larger.bytes.len()).step_by(4);
    bodies.extend(quarters.map(|length| larger.bytes[..length].to_vec()));
    for place in larger.item_offsets() {
        bodies.push(larger.bytes[..place + 1].to_vec());
    }
}

fn add_limits(bodies: &mut Vec<Vec<u8>>) {
    let wire = two_by_two().encode();
    let counts = [
        (Item::AddressCount, 9),
        (Item::LengthOf(Opaque::Netid), 9),
        (Item::LengthOf(Opaque::Address), 65),
        (Item::VersionCount, 9),
    ];
    for (item, above) in counts {
        let last = wire.offsets(item).len() - 1;
        for value in [0, above, above + 3, 1 << 24, u32::MAX] {
            let body = wire.with_uint(item, 0, value);
            bodies.push(body[..wire.offsets(item)[0] + 4].to_vec());
            bodies.push(body);
            if last > 0 {
                bodies.push(wire.with_uint(item, last, value));
            }
        }
    }
}

fn add_true_counts_past_the_limit(bodies: &mut Vec<Vec<u8>>) {
    let mut push = |plan: DevicePlan| bodies.push(plan.encode().bytes);
    push(shaped(0, 1));
    push(shaped(9, 1));
    push(shaped(1, 0));
    push(shaped(1, 9));
    let one = |netid: usize, address: usize| {
        let addresses = vec![(pattern(1, netid), pattern(2, address))];
        DevicePlan { addresses, ..DevicePlan::smallest() }
    };
    push(one(0, 1));
    push(one(9, 1));
    push(one(1, 0));
    push(one(1, 65));
    push(one(8, 64));
}

fn add_padding(bodies: &mut Vec<Vec<u8>>) {
    let wire = two_by_two().encode();
    for place in wire.padding_offsets() {
        for value in [1, 0x40, 0xff] {
            let corrupted = overwritten(&wire.bytes, place, &[value]);
            bodies.push(corrupted[..place + 1].to_vec());
            bodies.push(corrupted);
        }
    }
    let netid = wire.offsets(Item::PaddingOf(Opaque::Netid))[0];
    let corrupted = wire.holding(overwritten(&wire.bytes, netid, &[9]));
    bodies.push(corrupted.with_uint(Item::AddressCount, 0, 9));
    bodies.push(corrupted.with_uint(Item::LengthOf(Opaque::Address), 0, 65));
    bodies.push(corrupted.with_uint(Item::Version, 0, 7));
}

/// Lengths around 2,048, and bytes left over.
fn add_sizes(bodies: &mut Vec<Vec<u8>>) {
    let smallest = DevicePlan::smallest().encode().bytes;
    for length in [45, 46, 47, 48, 88, 809, 2_048, 2_049, 4_000] {
        bodies.push(extended(&smallest, &vec![0; length - smallest.len()]));
    }
    bodies.push(vec![0; 2_048]);
    bodies.push(vec![0xff; 2_049]);
}

fn add_damage(bodies: &mut Vec<Vec<u8>>) {
    let mut random = Random::new(66);
    let larger = two_by_two().encode().bytes;
    for _ in 0..120 {
        bodies.push(random.one_byte_changed(&larger));
    }
}
