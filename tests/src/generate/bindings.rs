//! Cases of binding a server to its device.

use independent::binding::BindRequest;
use independent::cases::CaseFileWriter;
use independent::samples::bodies::{
    fixed_pattern, DevicePlan, LayoutPlan, ServerPlan, VersionPlan, LOOSE_VERSIONS, TIGHT_VERSIONS,
};
use independent::samples::random::Random;
use independent::samples::wire::{extended, overwritten};

/// A binding whose parts can be changed one by one.
#[derive(Clone, Debug)]
struct Scene {
    mirror: u32,
    stripe: u32,
    supported_versions: u32,
    device_id: [u8; 16],
    layout_body: Vec<u8>,
    device_body: Vec<u8>,
}

impl Scene {
    /// One server and a device with these versions, which belong together.
    fn of(server: &ServerPlan, versions: &[VersionPlan]) -> Self {
        Scene {
            mirror: 0,
            stripe: 0,
            supported_versions: 15,
            device_id: server.device_id,
            layout_body: LayoutPlan::of_server(server.clone()).encode().bytes,
            device_body: DevicePlan::with_versions(versions).encode().bytes,
        }
    }

    fn add_to(&self, cases: &mut CaseFileWriter) {
        cases.bind(&BindRequest {
            mirror: self.mirror,
            stripe: self.stripe,
            supported_versions: self.supported_versions,
            device_id: self.device_id,
            layout_body: &self.layout_body,
            device_body: &self.device_body,
        });
    }
}

pub fn add(cases: &mut CaseFileWriter) {
    add_supported_sets(cases);
    add_places(cases);
    add_device_ids(cases);
    add_counts(cases);
    add_stateids(cases);
    add_all_fault_sets(cases);
    add_body_faults(cases);
    add_damage(cases);
}

/// A server with a filehandle of its own length for each of the versions.
fn server_for(versions: &[VersionPlan]) -> ServerPlan {
    let lengths: Vec<usize> = (0..versions.len()).map(|place| place * 3 + 2).collect();
    ServerPlan::sized(7, &lengths, 5, 3)
}

/// Every set of versions, on loose, tight and mixed devices.
fn add_supported_sets(cases: &mut CaseFileWriter) {
    let [v3, v40, v41, v42] = LOOSE_VERSIONS;
    let [t40, t41, t42] = TIGHT_VERSIONS;
    let devices: [&[VersionPlan]; 7] = [
        &[v3],
        &[t41],
        &LOOSE_VERSIONS,
        &TIGHT_VERSIONS,
        &[v42, v41, v40, v3],
        &[t42, v42, t41, v41, t40, v40, v3, v3],
        &[v41, t41, v3, t42],
    ];
    for versions in devices {
        let scene = Scene::of(&server_for(versions), versions);
        for supported_versions in 0..16 {
            Scene { supported_versions, ..scene.clone() }.add_to(cases);
        }
    }
    let scene = Scene::of(&server_for(&LOOSE_VERSIONS), &LOOSE_VERSIONS);
    for supported_versions in [16, 17, 31, 32, 255, 256, 1 << 24, 1 << 31, u32::MAX] {
        Scene { supported_versions, ..scene.clone() }.add_to(cases);
    }
}

/// Every place of a layout, and numbers beyond it. Stripe 16 of mirror 0 would
/// be mirror 1 in the flat array; a mirror of 2^28 would wrap it to 0.
fn add_places(cases: &mut CaseFileWriter) {
    let mut plan = LayoutPlan::plain(2, 3);
    for (place, server) in plan.mirrors.iter_mut().flatten().enumerate() {
        *server = ServerPlan::sized(place as u8 + 1, &[place + 1], place, 6 - place);
    }
    let device_body = DevicePlan::with_versions(&[LOOSE_VERSIONS[1]]).encode().bytes;
    let layout_body = plan.encode().bytes;
    let numbers = [0, 1, 2, 3, 7, 8, 15, 16, 17, 255, 256, 1 << 16, 1 << 28, 1 << 31, u32::MAX];
    for mirror in numbers {
        for stripe in numbers {
            let small = mirror <= 3 && stripe <= 3;
            if small || mirror == 0 || stripe == 0 || mirror == stripe {
                let own = plan.mirrors.get(mirror as usize).and_then(|m| m.get(stripe as usize));
                let device_id = own.map_or(plan.mirrors[0][0].device_id, |s| s.device_id);
                let layout_body = layout_body.clone();
                let device_body = device_body.clone();
                let supported_versions = 15;
                Scene { mirror, stripe, supported_versions, device_id, layout_body, device_body }.add_to(cases);
            }
        }
    }
}

/// 13: each byte of the device id, and the id of another server.
fn add_device_ids(cases: &mut CaseFileWriter) {
    let scene = Scene::of(&server_for(&LOOSE_VERSIONS[..1]), &LOOSE_VERSIONS[..1]);
    for place in 0..16 {
        let mut wrong = scene.clone();
        wrong.device_id[place] ^= 1 << (place % 8);
        wrong.add_to(cases);
    }
    Scene { device_id: [0; 16], ..scene.clone() }.add_to(cases);
    let layout_body = LayoutPlan::plain(2, 2).encode().bytes;
    for (mirror, stripe) in [(0, 0), (0, 1), (1, 0), (1, 1)] {
        let device_id = ServerPlan::smallest(2).device_id;
        let layout_body = layout_body.clone();
        Scene { mirror, stripe, device_id, layout_body, ..scene.clone() }.add_to(cases);
    }
}

/// 13: filehandle and version counts that agree, and that differ by one.
fn add_counts(cases: &mut CaseFileWriter) {
    let versions = [TIGHT_VERSIONS[1]; 8];
    for filehandles in 1..=8 {
        let server = ServerPlan::sized(9, &[4, 4, 4, 4, 4, 4, 4, 4][..filehandles], 1, 1);
        for count in filehandles.saturating_sub(1).max(1)..=(filehandles + 1).min(8) {
            Scene::of(&server, &versions[..count]).add_to(cases);
        }
    }
    let all = ServerPlan::sized(9, &[1, 2, 3, 4, 5, 6, 7, 128], 64, 63);
    let [v3, ..] = LOOSE_VERSIONS;
    let [.., t42] = TIGHT_VERSIONS;
    let last_is_tight = [v3, v3, v3, v3, v3, v3, v3, t42];
    let scene = Scene::of(&all, &last_is_tight);
    Scene { supported_versions: 8, ..scene.clone() }.add_to(cases);
    Scene { supported_versions: 9, ..scene.clone() }.add_to(cases);
    Scene { supported_versions: 6, ..scene }.add_to(cases);
}

/// 15: each byte of the stateid, with loose, tight and version 3 entries.
fn add_stateids(cases: &mut CaseFileWriter) {
    let [v3, v40, v41, v42] = LOOSE_VERSIONS;
    let [t40, t41, t42] = TIGHT_VERSIONS;
    for place in 0..16 {
        let versions = [[v40, v41, v42][place % 3]];
        let mut server = server_for(&versions);
        server.stateid[place] = 1 << (place % 8);
        Scene::of(&server, &versions).add_to(cases);
    }
    let devices: [&[VersionPlan]; 8] =
        [&[v3], &[t40], &[t41], &[t42], &[v3, v41], &[v41, v3], &[t41, v41], &[v41, t41]];
    for versions in devices {
        for stateid in [[0; 16], fixed_pattern(3)] {
            let server = ServerPlan { stateid, ..server_for(versions) };
            for supported_versions in [1, 4, 14, 15] {
                Scene { supported_versions, ..Scene::of(&server, versions) }.add_to(cases);
            }
        }
    }
}

/// Every set of the seven faults: "Check layout body, device body, 16, 8, 13,
/// 14, 15."
fn add_all_fault_sets(cases: &mut CaseFileWriter) {
    let versions = [LOOSE_VERSIONS[1], LOOSE_VERSIONS[2]];
    for faults in 0..128 {
        let has = |number: u32| faults & (1 << number) != 0;
        let mut server = server_for(&versions);
        server.stateid[3] = u8::from(has(6));
        let mut scene = Scene::of(&server, &versions);
        scene.supported_versions = if has(5) { 9 } else { 6 };
        scene.device_id[0] ^= u8::from(has(4));
        scene.supported_versions |= if has(3) { 16 } else { 0 };
        scene.mirror = u32::from(has(2) && faults & 1 == 0);
        scene.stripe = u32::from(has(2) && faults & 1 == 1);
        if has(1) {
            scene.device_body.push(0);
        }
        if has(0) {
            scene.layout_body.truncate(scene.layout_body.len() - 4);
        }
        scene.add_to(cases);
    }
}

/// Bodies that are refused by their own rules, the layout body first.
fn add_body_faults(cases: &mut CaseFileWriter) {
    let scene = Scene::of(&server_for(&LOOSE_VERSIONS), &LOOSE_VERSIONS);
    let empty = Vec::new();
    let layouts = [empty.clone(), vec![0; 80], vec![0; 4_091]];
    let devices = [empty, vec![0; 44], vec![0; 2_049]];
    for layout_body in &layouts {
        Scene { layout_body: layout_body.clone(), ..scene.clone() }.add_to(cases);
    }
    for device_body in &devices {
        Scene { device_body: device_body.clone(), ..scene.clone() }.add_to(cases);
    }
    Scene { layout_body: layouts[0].clone(), device_body: devices[2].clone(), ..scene.clone() }.add_to(cases);
    let flagged = overwritten(&scene.layout_body, scene.layout_body.len() - 5, &[16]);
    Scene { layout_body: flagged, ..scene.clone() }.add_to(cases);
    let no_boolean = overwritten(&scene.device_body, scene.device_body.len() - 1, &[2]);
    Scene { device_body: no_boolean, ..scene.clone() }.add_to(cases);
    let no_version = overwritten(&scene.device_body, scene.device_body.len() - 17, &[3]);
    Scene { device_body: extended(&no_version, &[0]), ..scene }.add_to(cases);
}

fn add_damage(cases: &mut CaseFileWriter) {
    let mut random = Random::new(67);
    let versions = [LOOSE_VERSIONS[2], TIGHT_VERSIONS[1], LOOSE_VERSIONS[0]];
    let scene = Scene::of(&server_for(&versions), &versions);
    for _ in 0..25 {
        let layout_body = random.one_byte_changed(&scene.layout_body);
        Scene { layout_body, ..scene.clone() }.add_to(cases);
        let device_body = random.one_byte_changed(&scene.device_body);
        Scene { device_body, ..scene.clone() }.add_to(cases);
    }
}
