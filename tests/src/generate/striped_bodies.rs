//! Layouts with several data servers or mirrors.

use independent::samples::bodies::{with_efficiencies, LayoutPlan};

/// Mirrors and servers: small enough that many bodies can be granted.
const SHAPES: [(usize, usize); 7] = [(1, 2), (2, 2), (1, 3), (3, 1), (1, 4), (2, 1), (1, 5)];
/// Powers of two and others, and some that 32 bits would cut.
const UNITS: [u64; 10] = [3, 10, 64, 1_000, 4_096, 5_000, 1 << 32, (1 << 32) + 1, (1 << 44) - 5, 1 << 62];
/// Efficiencies of the mirrors; most of them have a tie.
const EFFICIENCIES: [[u32; 3]; 6] = [[1, 1, 1], [0, 1, 1], [2, 0, 2], [1, 0, 0], [0, 1 << 31, 1], [4, 4, 5]];

/// An accepted body of 136 to 304 bytes, another one for each number.
pub fn striped_body(number: u32) -> Vec<u8> {
    let place = number as usize;
    let (mirrors, servers) = SHAPES[place % SHAPES.len()];
    let plain = LayoutPlan::plain(mirrors, servers);
    let mut plan = with_efficiencies(plain, &EFFICIENCIES[place % EFFICIENCIES.len()]);
    if servers > 1 {
        plan.unit = UNITS[place % UNITS.len()];
    }
    LayoutPlan { flags: number.wrapping_mul(5) % 16, hint: number, ..plan }.encode().bytes
}

#[cfg(test)]
mod tests {
    use super::*;
    use independent::layout::read_layout_body;
    use std::collections::HashSet;

    #[test]
    fn striped_bodies_are_accepted_and_different() {
        let bodies: HashSet<Vec<u8>> = (0..300).map(striped_body).collect();
        assert_eq!(bodies.len(), 300);
        for body in bodies {
            let layout = read_layout_body(&body).unwrap();
            assert!(layout.mirrors > 1 || layout.servers > 1);
            assert!((136..=304).contains(&body.len()), "{} bytes", body.len());
        }
    }
}
