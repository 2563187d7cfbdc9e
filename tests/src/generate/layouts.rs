//! Cases of layout bodies.

use independent::cases::{kind, CaseFileWriter};
use independent::samples::bodies::{LayoutPlan, ServerPlan};
use independent::samples::random::Random;
use independent::samples::wire::{extended, overwritten, pattern, Item, Opaque, Wire};

/// The most smallest servers a mirror, by mirror count, within 4,090 bytes:
/// 20 + mirrors * (4 + 56 * servers).
pub const MOST_SERVERS: [usize; 8] = [16, 16, 16, 16, 14, 12, 10, 9];

pub fn add(cases: &mut CaseFileWriter) {
    for body in all_bodies() {
        cases.record(kind::LAYOUT_BODY, &body);
    }
}

fn all_bodies() -> Vec<Vec<u8>> {
    let mut bodies = Vec::new();
    add_shapes(&mut bodies);
    add_lengths(&mut bodies);
    add_values(&mut bodies);
    add_cuts(&mut bodies);
    bodies.extend(limits(&LayoutPlan::two_by_two().encode()));
    add_true_counts_past_the_limit(&mut bodies);
    add_padding(&mut bodies);
    add_unit_disagreements(&mut bodies);
    add_count_differences(&mut bodies);
    add_flags(&mut bodies);
    add_sizes(&mut bodies);
    add_two_faults(&mut bodies);
    add_damage(&mut bodies);
    bodies
}

/// Mirror counts 1 to 8 and server counts 1 to 16, and one server more a
/// mirror than the body's length allows.
fn add_shapes(bodies: &mut Vec<Vec<u8>>) {
    for servers in 1..=16 {
        bodies.push(LayoutPlan::plain(1, servers).encode().bytes);
    }
    for mirrors in 2..=8 {
        for servers in [1, 3] {
            bodies.push(LayoutPlan::plain(mirrors, servers).encode().bytes);
        }
        let most = MOST_SERVERS[mirrors - 1];
        bodies.push(LayoutPlan::plain(mirrors, most).encode().bytes);
        if mirrors == 5 || mirrors == 8 {
            bodies.push(LayoutPlan::plain(mirrors, most + 1).encode().bytes);
        }
    }
}

/// Every filehandle length, filehandle count, user length and group length.
fn add_lengths(bodies: &mut Vec<Vec<u8>>) {
    let mut push = |server| bodies.push(LayoutPlan::of_server(server).encode().bytes);
    for length in 1..=128 {
        push(ServerPlan::sized(length as u8, &[length], 0, 0));
    }
    for count in 1..=8 {
        let lengths: Vec<usize> = (1..=count).map(|place| place * 3).collect();
        push(ServerPlan::sized(count as u8, &lengths, count, 8 - count));
    }
    for length in 0..=64 {
        push(ServerPlan::sized(length as u8, &[1], length, 64 - length));
    }
    push(ServerPlan::sized(1, &[128; 8], 64, 64));
}

/// Units, flags, hints and efficiencies that are accepted.
fn add_values(bodies: &mut Vec<Vec<u8>>) {
    let one = LayoutPlan::plain(1, 1).encode();
    let two = LayoutPlan::plain(1, 2).encode();
    for unit in [1, 4_095, 4_096, 1 << 31, 1 << 32, 1 << 44, 1 << 62, 1 << 63, u64::MAX] {
        bodies.push(two.with_uhyper(Item::Unit, 0, unit));
    }
    for flags in 0..16 {
        bodies.push(one.with_uint(Item::Flags, 0, flags));
    }
    for value in [1, 60, 1 << 31, u32::MAX] {
        bodies.push(one.with_uint(Item::Hint, 0, value));
        bodies.push(two.with_uint(Item::Efficiency, 1, value));
    }
}

/// The smallest body cut at every byte, a larger one at every multiple of 4
/// and inside every third item.
fn add_cuts(bodies: &mut Vec<Vec<u8>>) {
    let smallest = LayoutPlan::plain(1, 1).encode().bytes;
    bodies.extend((0..smallest.len()).map(|length| smallest[..length].to_vec()));
    let larger = LayoutPlan::two_by_two().encode();
    let quarters = (0..larger.bytes.len()).step_by(4);
    bodies.extend(quarters.map(|length| larger.bytes[..length].to_vec()));
    for place in larger.item_offsets().into_iter().step_by(3) {
        bodies.push(larger.bytes[..place + 1].to_vec());
    }
}

/// Each count and length outside its limit, at its first and its last occurrence.
pub fn limits(wire: &Wire) -> Vec<Vec<u8>> {
    let counts = [
        (Item::MirrorCount, &[0, 9, 256, 1 << 31, u32::MAX][..]),
        (Item::ServerCount, &[0, 17, 256, 1 << 31, u32::MAX]),
        (Item::FilehandleCount, &[0, 9, 256, 1 << 31, u32::MAX]),
        (Item::LengthOf(Opaque::Filehandle), &[0, 129, 132, 1 << 24, u32::MAX]),
        (Item::LengthOf(Opaque::User), &[65, 68, 1 << 24, u32::MAX]),
        (Item::LengthOf(Opaque::Group), &[65, 68, 1 << 24, u32::MAX]),
    ];
    let mut bodies = Vec::new();
    for (item, values) in counts {
        let last = wire.offsets(item).len() - 1;
        for &value in values {
            let body = wire.with_uint(item, 0, value);
            // Nothing after the number: it is an item of its own.
            bodies.push(body[..wire.offsets(item)[0] + 4].to_vec());
            bodies.push(body);
            if last > 0 && value <= 129 {
                bodies.push(wire.with_uint(item, last, value));
            }
        }
    }
    bodies
}

/// One more of each than allowed, with all the bytes that go with it.
fn add_true_counts_past_the_limit(bodies: &mut Vec<Vec<u8>>) {
    let mut push = |plan: LayoutPlan| bodies.push(plan.encode().bytes);
    push(LayoutPlan::plain(0, 1));
    push(LayoutPlan::plain(9, 1));
    push(LayoutPlan::plain(1, 17));
    push(LayoutPlan { unit: 4_096, ..LayoutPlan::plain(1, 0) });
    push(LayoutPlan::of_server(ServerPlan::sized(1, &[], 1, 1)));
    push(LayoutPlan::of_server(ServerPlan::sized(1, &[4; 9], 1, 1)));
    push(LayoutPlan::of_server(ServerPlan::sized(1, &[0], 1, 1)));
    push(LayoutPlan::of_server(ServerPlan::sized(1, &[129], 1, 1)));
    push(LayoutPlan::of_server(ServerPlan::sized(1, &[4, 129], 1, 1)));
    push(LayoutPlan::of_server(ServerPlan::sized(1, &[4], 65, 1)));
    push(LayoutPlan::of_server(ServerPlan::sized(1, &[4], 1, 65)));
}

/// Each padding byte of a body with every kind of padding.
fn add_padding(bodies: &mut Vec<Vec<u8>>) {
    let wire = LayoutPlan::two_by_two().encode();
    for place in wire.padding_offsets() {
        // Each of the eight bits has its turn.
        bodies.push(overwritten(&wire.bytes, place, &[1 << (place % 8)]));
    }
}

/// 10, with one mirror and with more.
fn add_unit_disagreements(bodies: &mut Vec<Vec<u8>>) {
    for mirrors in [1, 3] {
        let one = LayoutPlan::plain(mirrors, 1).encode();
        for unit in [1, 4_096, 1 << 32, 1 << 63, u64::MAX] {
            bodies.push(one.with_uhyper(Item::Unit, 0, unit));
        }
        for servers in [2, 3, 16] {
            bodies.push(LayoutPlan::plain(mirrors, servers).encode().with_uhyper(Item::Unit, 0, 0));
        }
    }
    let two = LayoutPlan::plain(2, 2).encode();
    let one_with_unit = LayoutPlan { unit: 1, ..LayoutPlan::plain(2, 1) }.encode();
    // 8 before 10 at the same count, 10 before all that is after it.
    for count in [0, 17, u32::MAX] {
        let no_unit = two.holding(two.with_uhyper(Item::Unit, 0, 0));
        bodies.push(no_unit.with_uint(Item::ServerCount, 0, count));
        bodies.push(one_with_unit.with_uint(Item::ServerCount, 0, count));
    }
    bodies.push(one_with_unit.with_uint(Item::FilehandleCount, 0, 9));
    bodies.push(one_with_unit.with_uint(Item::ServerCount, 1, 2));
    bodies.push(one_with_unit.bytes[..16].to_vec());
}

/// 9: later mirrors whose count is another one, both in the number alone and
/// with the servers that go with it.
fn add_count_differences(bodies: &mut Vec<Vec<u8>>) {
    let one = LayoutPlan::plain(3, 1).encode();
    let two = LayoutPlan::plain(3, 2).encode();
    for count in 0..=17 {
        bodies.push(one.with_uint(Item::ServerCount, 1, count));
    }
    for count in [0, 1, 3, 16, 17, u32::MAX] {
        bodies.push(two.with_uint(Item::ServerCount, 2, count));
    }
    for (first, later) in [(1, 2), (2, 1), (2, 3), (3, 2)] {
        let mut plan = LayoutPlan::plain(2, first);
        plan.mirrors[1] = LayoutPlan::plain(1, later).mirrors.remove(0);
        bodies.push(plan.encode().bytes);
        plan.mirrors.swap(0, 1);
        plan.mirrors.push(plan.mirrors[0].clone());
        bodies.push(LayoutPlan { unit: u64::from(later > 1), ..plan }.encode().bytes);
    }
    let differing = one.with_uint(Item::ServerCount, 1, 2);
    bodies.push(differing[..one.offsets(Item::ServerCount)[1] + 4].to_vec());
}

/// Each unknown flag bit, alone and beside known ones.
fn add_flags(bodies: &mut Vec<Vec<u8>>) {
    let wire = LayoutPlan::plain(1, 1).encode();
    for bit in 4..32 {
        bodies.push(wire.with_uint(Item::Flags, 0, 1 << bit));
    }
    for flags in [16 | 15, 0x8000_0007, u32::MAX] {
        let body = wire.with_uint(Item::Flags, 0, flags);
        // 11 is met before the missing hint and before bytes left over.
        bodies.push(body[..76].to_vec());
        bodies.push(extended(&body, &[0; 4]));
        bodies.push(body);
    }
}

/// A body of the given length with one server; lengths that are no multiple of
/// 4 have bytes left over.
pub fn body_of_length(length: usize) -> Vec<u8> {
    // 28 smallest servers have 20 + 2 * (4 + 14 * 56) = 1,596 bytes.
    let mut plan = LayoutPlan::plain(2, 14);
    let mut missing = length - plan.encode().bytes.len();
    for server in plan.mirrors.iter_mut().flatten() {
        // Each filehandle of up to 128 bytes is in place of one of 1 byte.
        let more = missing.min(124) / 4 * 4;
        server.filehandles[0] = pattern(server.efficiency as u8, more + 4);
        missing -= more;
    }
    extended(&plan.encode().bytes, &vec![0; missing])
}

/// Body lengths around the limit, far above it, and bytes left over.
fn add_sizes(bodies: &mut Vec<Vec<u8>>) {
    for length in [4_088, 4_089, 4_090, 4_091, 4_092] {
        bodies.push(body_of_length(length));
    }
    bodies.push(vec![0; 16_000]);
    let smallest = LayoutPlan::plain(1, 1).encode().bytes;
    for more in [1, 2, 3, 4, 8, 80] {
        bodies.push(extended(&smallest, &vec![0; more]));
        bodies.push(extended(&smallest, &vec![0xff; more]));
    }
    bodies.push(smallest.repeat(2));
}

/// Two faults in one body: the first one met decides.
fn add_two_faults(bodies: &mut Vec<Vec<u8>>) {
    let wire = LayoutPlan::two_by_two().encode();
    let padding = wire.offsets(Item::PaddingOf(Opaque::Filehandle))[0];
    let corrupted = overwritten(&wire.bytes, padding, &[1]);
    bodies.push(corrupted[..padding].to_vec());
    bodies.push(corrupted[..padding + 1].to_vec());
    bodies.push(corrupted[..padding + 3].to_vec());
    bodies.push(extended(&corrupted, &[0]));
    let bad_padding = wire.holding(corrupted);
    bodies.push(bad_padding.with_uint(Item::FilehandleCount, 0, 9));
    bodies.push(bad_padding.with_uint(Item::Flags, 0, 16));
    bodies.push(bad_padding.with_uint(Item::ServerCount, 1, 1));
    bodies.push(bad_padding.with_uint(Item::LengthOf(Opaque::User), 0, 65));
    let flagged = wire.holding(wire.with_uint(Item::Flags, 0, 16));
    bodies.push(flagged.with_uint(Item::LengthOf(Opaque::Group), 3, 65));
    bodies.push(flagged.with_uint(Item::ServerCount, 1, 3));
    bodies.push(flagged.with_uhyper(Item::Unit, 0, 0));
}

/// Single bytes changed at random.
fn add_damage(bodies: &mut Vec<Vec<u8>>) {
    let mut random = Random::new(64);
    let smallest = LayoutPlan::plain(1, 1).encode().bytes;
    let larger = LayoutPlan::two_by_two().encode().bytes;
    for _ in 0..50 {
        bodies.push(random.one_byte_changed(&smallest));
    }
    for _ in 0..30 {
        bodies.push(random.one_byte_changed(&larger));
    }
}

#[cfg(test)]
mod tests {
    use super::*;

    #[test]
    fn most_servers_fill_the_limit() {
        for (place, &servers) in MOST_SERVERS.iter().enumerate() {
            let length = |servers| LayoutPlan::plain(place + 1, servers).encode().bytes.len();
            assert!(length(servers) <= 4_090);
            assert!(servers == 16 || length(servers + 1) > 4_090);
        }
    }

    #[test]
    fn bodies_have_the_length_asked_for() {
        for length in [1_596, 1_600, 4_088, 4_091] {
            assert_eq!(body_of_length(length).len(), length);
        }
    }
}
