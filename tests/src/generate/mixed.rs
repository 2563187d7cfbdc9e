//! Random cases of all kinds, sound and damaged.

use super::bad_records::{add_cut_record, add_record_without_form, add_unknown_kind};
use super::corruptions::{refused_revoke, REVOKE_CASES};
use super::event_bursts::{EventSource, MOST_IN_BOTH};
use super::judged_mirrors::{random_judged, MOST_IN_JUDGED};
use super::layout4s::EDGES;
use super::layouts::MOST_SERVERS;
use super::random_statistics::add_statistics_case;
use super::reports_written::case_of;
use super::segment_limits::{random_full_list, MOST_IN_FULL_LIST};
use independent::binding::BindRequest;
use independent::cases::{kind, CaseFileWriter};
use independent::report::DeviceError;
use independent::samples::bodies::{
    encode_reports, DevicePlan, Layout4Head, LayoutPlan, ReportPlan, ServerPlan, VersionPlan, LOOSE_VERSIONS,
    TIGHT_VERSIONS,
};
use independent::samples::random::Random;
use independent::samples::wire::Wire;
use independent::table_cases::TableCase;

/// The longest burst of cases that concern the table.
const LONGEST_BURST: usize = 80;

/// A file of `count` random cases; those of the table come in bursts, between
/// which its state stays, and those of I/O statistics come everywhere. One seed
/// in two adds a last record that stops the run: a cut one, one of an unknown
/// kind, or one without its form.
pub fn random_file(seed: u64, count: usize) -> Vec<u8> {
    let mut random = Random::new(seed);
    let mut cases = CaseFileWriter::default();
    let mut source = EventSource::new(&mut random);
    let mut left = count;
    while left > 0 {
        if random.once_in(2) {
            add_statistics_case(&mut cases, &mut random);
            left -= 1;
            continue;
        }
        let burst = table_cases(&mut source, &mut random, left);
        if burst.is_empty() {
            add_case(&mut cases, &mut random);
            left -= 1;
        }
        burst.iter().for_each(|case| cases.table(case));
        left -= burst.len();
    }
    match seed % 6 {
        3 => add_cut_record(&mut cases, &mut random),
        4 => add_unknown_kind(&mut cases, &mut random),
        5 => add_record_without_form(&mut cases, &mut random),
        _ => {}
    }
    cases.into_bytes()
}

/// At most `left` cases of the table; none where it is the turn of the wire.
fn table_cases(source: &mut EventSource, random: &mut Random, left: usize) -> Vec<TableCase> {
    if random.once_in(30) {
        let length = random.between(1, LONGEST_BURST).min(left);
        return source.burst(random, length);
    }
    if left >= MOST_IN_BOTH && random.once_in(14) {
        return source.both_iomodes(random);
    }
    let cases = if left >= MOST_IN_JUDGED && random.once_in(50) {
        random_judged(random)
    } else if left >= MOST_IN_FULL_LIST && random.once_in(200) {
        random_full_list(random)
    } else if left >= REVOKE_CASES && random.once_in(200) {
        refused_revoke(random)
    } else {
        Vec::new()
    };
    source.follow(&cases);
    cases
}

/// One case of the wire part.
pub fn add_case(cases: &mut CaseFileWriter, random: &mut Random) {
    match random.below(6) {
        0 => {
            let wire = layout_plan(random).encode();
            cases.record(kind::LAYOUT_BODY, &perhaps_damaged(random, &wire));
        }
        1 => add_layout4(cases, random),
        2 => {
            let wire = device_plan(random).encode();
            cases.record(kind::DEVICE, &perhaps_damaged(random, &wire));
        }
        3 => add_bind(cases, random),
        4 => {
            let wire = encode_reports(&report_plans(random), 0);
            cases.record(kind::REPORT_READ, &perhaps_damaged(random, &wire));
        }
        _ => add_report_write(cases, random),
    }
}

/// Half of the bodies stay as they are.
fn perhaps_damaged(random: &mut Random, wire: &Wire) -> Vec<u8> {
    let mut bytes = wire.bytes.clone();
    if random.once_in(2) {
        return bytes;
    }
    match random.below(5) {
        0 => bytes.truncate(random.below(wire.bytes.len())),
        1 => {
            let more = random.between(1, 8);
            bytes.resize(wire.bytes.len() + more, 0);
        }
        2 => bytes = random.one_byte_changed(&bytes),
        3 => corrupt_padding(random, wire, &mut bytes),
        _ => corrupt_item(random, wire, &mut bytes),
    }
    bytes
}

fn corrupt_padding(random: &mut Random, wire: &Wire, bytes: &mut [u8]) {
    let places = wire.padding_offsets();
    if !places.is_empty() {
        bytes[random.pick(&places)] = random.between(1, 255) as u8;
    }
}

/// A number near a limit in the first four bytes of some item.
fn corrupt_item(random: &mut Random, wire: &Wire, bytes: &mut [u8]) {
    let numbers = [0, 1, 2, 3, 4, 5, 7, 8, 9, 15, 16, 17, 25, 38, 64, 65, 128, 129, 1 << 31, u32::MAX];
    let place = random.pick(&wire.item_offsets());
    if let Some(target) = bytes.get_mut(place..place + 4) {
        target.copy_from_slice(&random.pick(&numbers).to_be_bytes());
    }
}

fn layout_plan(random: &mut Random) -> LayoutPlan {
    let mirrors = random.between(1, 8);
    let most = if random.once_in(3) { MOST_SERVERS[mirrors - 1] } else { 3 };
    let servers = if random.once_in(2) { 1 } else { random.between(1, most) };
    let mut plan = LayoutPlan::plain(mirrors, servers);
    if servers > 1 {
        plan.unit = 1 << random.below(64);
    }
    plan.flags = random.below(16) as u32;
    plan.hint = random.next_u32();
    for server in plan.mirrors.iter_mut().flatten() {
        if random.once_in(2) {
            *server = server_plan(random);
        }
    }
    if random.once_in(20) {
        match random.below(3) {
            // One server more in the last mirror: with more than one mirror that is 9.
            0 => plan.mirrors[mirrors - 1].push(server_plan(random)),
            // 10, and 11.
            1 => plan.unit = u64::from(servers == 1),
            _ => plan.flags |= 16 << random.below(28),
        }
    }
    plan
}

fn server_plan(random: &mut Random) -> ServerPlan {
    let count = if random.once_in(3) { random.between(1, 8) } else { 1 };
    let longest = if random.once_in(3) { 128 } else { 9 };
    let lengths: Vec<usize> = (0..count).map(|_| random.between(1, longest)).collect();
    let owner = |random: &mut Random| random.pick(&[0, 1, 2, 3, 4, 5, 63, 64]);
    let (user, group) = (owner(random), owner(random));
    ServerPlan {
        device_id: random.fixed(),
        efficiency: random.next_u32(),
        stateid: if random.once_in(2) { [0; 16] } else { random.fixed() },
        ..ServerPlan::sized(random.next_u32() as u8, &lengths, user, group)
    }
}

/// A number that is an edge, near one, or any.
fn edge(random: &mut Random) -> u64 {
    match random.below(4) {
        0 => random.next_u64(),
        1 => random.pick(&EDGES).wrapping_add(random.between(0, 4) as u64).wrapping_sub(2),
        2 => random.next_u64() >> random.below(64),
        _ => random.pick(&EDGES),
    }
}

fn add_layout4(cases: &mut CaseFileWriter, random: &mut Random) {
    let wire = layout_plan(random).encode();
    let body = perhaps_damaged(random, &wire);
    let head = Layout4Head {
        offset: edge(random),
        length: edge(random),
        iomode: if random.once_in(8) { random.between(0, 5) as u32 } else { 2 },
        layout_type: if random.once_in(8) { random.between(0, 5) as u32 } else { 4 },
    };
    let length = body.len() + random.pick(&[0, 0, 0, 1, 2, 4]) - random.pick(&[0, 0, 0, 0, 4]).min(body.len());
    let bytes = if random.once_in(4) { head.claiming(length as u32, &body) } else { head.around(&body) };
    cases.record(kind::LAYOUT4, &bytes);
}

fn version_plans(random: &mut Random, count: usize) -> Vec<VersionPlan> {
    let all = [&LOOSE_VERSIONS[..], &TIGHT_VERSIONS].concat();
    (0..count).map(|_| random.pick(&all)).collect()
}

fn device_plan(random: &mut Random) -> DevicePlan {
    let netids: [&[u8]; 8] = [b"tcp", b"tcp6", b"udp", b"udp6", b"rdma", b"rdma6", b"tc", b"tcp66"];
    let address = |random: &mut Random| {
        let netid = random.pick(&netids).to_vec();
        let length = random.between(1, 64);
        (netid, random.bytes(length))
    };
    let addresses = (0..random.between(1, 8)).map(|_| address(random)).collect();
    let count = random.between(1, 8);
    DevicePlan { addresses, versions: version_plans(random, count) }
}

/// A layout and a device that mostly belong together.
fn add_bind(cases: &mut CaseFileWriter, random: &mut Random) {
    let plan = layout_plan(random);
    let mirror = random.below(plan.mirrors.len());
    let stripe = random.below(plan.mirrors[mirror].len());
    let server = &plan.mirrors[mirror][stripe];
    let count = if random.once_in(8) { random.between(1, 8) } else { server.filehandles.len() };
    let device = DevicePlan::with_versions(&version_plans(random, count)).encode();
    let wire = plan.encode();
    let whole = random.once_in(2);
    let layout_body = if whole { wire.bytes } else { perhaps_damaged(random, &wire) };
    let device_body = if whole { device.bytes } else { perhaps_damaged(random, &device) };
    let beyond = |random: &mut Random, place: usize| {
        let number = if random.once_in(12) { random.pick(&[1, 8, 16, u32::MAX]) } else { 0 };
        number.wrapping_add(place as u32)
    };
    cases.bind(&BindRequest {
        mirror: beyond(random, mirror),
        stripe: beyond(random, stripe),
        supported_versions: if random.once_in(12) { random.next_u32() } else { random.below(16) as u32 },
        device_id: if random.once_in(12) { random.fixed() } else { server.device_id },
        layout_body: &layout_body,
        device_body: &device_body,
    });
}

fn report_plans(random: &mut Random) -> Vec<ReportPlan> {
    (0..random.between(0, 8)).map(|_| report_plan(random)).collect()
}

fn report_plan(random: &mut Random) -> ReportPlan {
    let whole_file = random.once_in(2);
    let most = if random.once_in(4) { 16 } else { 3 };
    let errors = (0..random.between(1, most)).map(|_| device_error(random)).collect();
    ReportPlan {
        offset: if whole_file { 0 } else { edge(random) },
        length: if random.once_in(8) { edge(random) } else { u64::MAX },
        stateid: random.fixed(),
        errors,
    }
}

fn device_error(random: &mut Random) -> DeviceError {
    DeviceError {
        device_id: random.fixed(),
        status: if random.once_in(40) { 0 } else { random.next_u32() | 1 },
        operation: if random.once_in(40) { random.below(40) as u32 } else { random.pick(&[5, 25, 38]) },
    }
}

/// Reports with an output around their size, sometimes with other counts.
fn add_report_write(cases: &mut CaseFileWriter, random: &mut Random) {
    let plans = report_plans(random);
    let size: usize = 8 + plans.iter().map(|plan| 36 + 24 * plan.errors.len()).sum::<usize>();
    let output_length = match random.below(4) {
        0 => random.below(size),
        1 => size + random.below(9),
        _ => size,
    };
    let mut case = case_of(&plans, output_length);
    if random.once_in(6) && !plans.is_empty() {
        let place = random.below(plans.len());
        case.heads[place].error_count = random.pick(&[0, 1, 16, 17, 1 << 31, u32::MAX]);
    }
    if random.once_in(10) {
        case.errors.pop();
    }
    if random.once_in(16) && plans.len() == 8 {
        case.report_count = random.pick(&[9, 16, u32::MAX]);
    }
    cases.report_write(&case);
}

#[cfg(test)]
mod tests {
    use super::*;
    use independent::cases::{CaseFile, Ending};

    /// The number of cases read, and how the file ends.
    fn read(bytes: &[u8]) -> (usize, Ending) {
        let mut file = CaseFile::new(bytes);
        let count = file.by_ref().count();
        (count, file.ending())
    }

    #[test]
    fn half_of_the_seeds_end_properly() {
        for seed in 0..60 {
            let bytes = random_file(seed, 20);
            let (count, ending) = read(&bytes);
            assert_eq!(count, 20, "seed {seed}");
            let proper = ending == Ending::End(bytes.len());
            assert_eq!(proper, seed % 6 < 3, "seed {seed}");
        }
    }

    #[test]
    fn the_same_seed_gives_the_same_file() {
        assert_eq!(random_file(7, 50), random_file(7, 50));
        assert_ne!(random_file(7, 50), random_file(8, 50));
    }
}
