//! The bodies that are read.

use independent::samples::bodies::{with_efficiencies, LayoutPlan, ServerPlan};

/// The body of a captured layout4 starts after 28 bytes.
const BODY: usize = 28;
const ONE_MIRROR: &[u8] = include_bytes!("../../captures/stock/A1_v42_ipv4_lg000_0.bin");
const THREE_MIRRORS: &[u8] = include_bytes!("../../captures/patched-server/P2_3mirrors_multi_lg000_0.bin");
pub const DEVICE: &[u8] = include_bytes!("../../captures/patched-server/P2_3mirrors_multi_gd000.bin");

/// Captured, 104 bytes.
pub fn one_mirror() -> &'static [u8] {
    &ONE_MIRROR[BODY..]
}

/// Captured, 344 bytes; its first server is on the captured device.
pub fn three_mirrors() -> &'static [u8] {
    &THREE_MIRRORS[BODY..]
}

/// The stripe unit of the bodies that are made here.
pub const UNIT: u64 = 65_536;

/// So many mirrors and servers, 80 bytes each, as in the captures; bodies with different hints differ in their last four bytes only.
pub fn striped(mirrors: usize, servers: usize, flags: u32, hint: u32) -> Vec<u8> {
    plan(mirrors, servers, flags, hint).encode().bytes
}

/// The same, in which the last mirror is the best at stripe 0, and mirror 0 at every other stripe.
pub fn judged_by_stripe(mirrors: usize, servers: usize, flags: u32) -> Vec<u8> {
    let efficiencies: Vec<u32> = (1..=mirrors as u32).collect();
    with_efficiencies(plan(mirrors, servers, flags, 0), &efficiencies).encode().bytes
}

fn plan(mirrors: usize, servers: usize, flags: u32, hint: u32) -> LayoutPlan {
    let server = |m: usize, s: usize| ServerPlan::sized((m * servers + s) as u8, &[20], 1, 1);
    let mirrors = (0..mirrors).map(|m| (0..servers).map(|s| server(m, s)).collect()).collect();
    LayoutPlan { unit: UNIT, mirrors, flags, hint }
}
