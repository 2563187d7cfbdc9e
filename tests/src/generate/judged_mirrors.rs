//! Layouts of several mirrors and several servers, whose best mirror changes
//! with the stripe (C-12), and requests at the ends of their units.

use super::locates::{ask, start_with, FAR};
use super::GRANT_IOMODES;
use independent::cases::CaseFileWriter;
use independent::io_request::{Direction, IoRequest};
use independent::iomode::{IOMODE_READ, IOMODE_RW};
use independent::range::LAST_BYTE;
use independent::samples::bodies::LayoutPlan;
use independent::samples::events::{grant, recall};
use independent::samples::random::Random;
use independent::table_cases::TableCase;

/// The efficiencies of the mirrors at one stripe; fewer than eight mirrors have
/// the first of them.
type Column = [u32; 8];

/// The highest efficiency, and the lowest one that has the first bit.
const MOST: u32 = u32::MAX;
const HALF: u32 = 1 << 31;

/// The last mirror is the best.
const RISING: Column = [1, 2, 3, 4, 5, 6, 7, 8];
/// Mirror 0 is.
const FALLING: Column = [8, 7, 6, 5, 4, 3, 2, 1];
/// Mirror 0, by a tie of all.
const ALL_0: Column = [0; 8];
const ALL_MOST: Column = [MOST; 8];
/// Mirror 0, and from three mirrors on by a tie.
const TIE_FROM_0: Column = [9, 3, 9, 0, 9, 9, 1, 9];
/// Mirror 1, and from three mirrors on by a tie.
const TIE_FROM_1: Column = [3, 9, 9, 0, 9, 1, 9, 9];
const MOST_FROM_1: Column = [0, MOST, MOST, 1, MOST, MOST - 1, 0, MOST];
/// Mirror 1, unless the first bit is taken for a sign.
const UNSIGNED: Column = [HALF - 1, HALF, 1, 0, HALF - 2, HALF, 7, 1];
/// Mirror 1, with the least that is more than 0.
const ONE_ABOVE_0: Column = [0, 1, 0, 0, 1, 0, 0, 0];

/// A layout by the efficiencies at each of its stripes.
#[derive(Clone, Copy)]
struct Judged<'a> {
    unit: u64,
    mirrors: usize,
    stripes: &'a [Column],
}

const fn judged(unit: u64, mirrors: usize, stripes: &[Column]) -> Judged<'_> {
    Judged { unit, mirrors, stripes }
}

/// The layouts of the stored file, and the number of the first unit that is
/// asked for.
const STORED: [(Judged, u64); 9] = [
    (judged(10, 2, &[FALLING, RISING]), 0),
    (judged(2, 3, &[TIE_FROM_0, TIE_FROM_1, RISING]), FAR / 2),
    (judged(4_096, 2, &[ALL_0, RISING]), 0),
    (judged(5_000, 3, &[RISING, ALL_0]), 0),
    (judged(1 << 32, 3, &[FALLING, TIE_FROM_1, MOST_FROM_1]), 4),
    (judged(7, 2, &[UNSIGNED, FALLING, ALL_MOST, MOST_FROM_1, ONE_ABOVE_0]), 0),
    (judged(64, 8, &[RISING, FALLING, TIE_FROM_1]), FAR / 64),
    (judged(3, 8, &[MOST_FROM_1, ALL_MOST]), 0),
    (judged(3, 2, &SIXTEEN), 0),
];

/// With two mirrors the best one is 1, 0, 0, 1, 1, 0, 0, 1, 1, 0, 0, 1, 1, 1, 1
/// and 0.
const SIXTEEN: [Column; 16] = [
    RISING,
    ALL_MOST,
    FALLING,
    UNSIGNED,
    RISING,
    TIE_FROM_0,
    ALL_0,
    TIE_FROM_1,
    RISING,
    FALLING,
    FALLING,
    MOST_FROM_1,
    RISING,
    ONE_ABOVE_0,
    RISING,
    FALLING,
];

/// RW's and READ's layout, by their numbers in the list.
const PAIRS: [(usize, usize); 3] = [(0, 5), (5, 7), (7, 0)];
/// Bytes at the ends of units of these layouts and inside them.
const IN_BOTH: [u64; 6] = [6, 7, 10, 13, 19, 34];

/// The most requests that follow random grants, and the units that they are in.
const MOST_REQUESTS: usize = 12;
const UNITS_ASKED: usize = 30;
/// A reset, two grants, a recall and the requests.
pub const MOST_IN_JUDGED: usize = 4 + MOST_REQUESTS;
/// How many bodies random cases have, and their mirrors and servers, units and
/// efficiencies.
const BODIES: usize = 5_000;
const SHAPES: [(usize, usize); 7] = [(2, 2), (3, 2), (8, 2), (2, 3), (8, 3), (2, 5), (4, 3)];
const UNITS: [u64; 5] = [2, 3, 10, 64, 4_096];
const COLUMNS: [Column; 9] =
    [RISING, ALL_0, FALLING, TIE_FROM_1, ALL_MOST, MOST_FROM_1, TIE_FROM_0, UNSIGNED, ONE_ABOVE_0];

pub fn add(cases: &mut CaseFileWriter) {
    for (layout, first_unit) in STORED {
        for flags in [0, 8] {
            add_unit_ends(cases, layout, first_unit, flags);
        }
    }
    for (rw, read) in PAIRS {
        for flags in [0, 12] {
            add_both_iomodes(cases, STORED[rw].0, STORED[read].0, flags);
        }
    }
}

impl Judged<'_> {
    fn body(&self, flags: u32, hint: u32) -> Vec<u8> {
        let row = |mirror: usize| -> Vec<u32> { self.stripes.iter().map(|column| column[mirror]).collect() };
        let rows: Vec<Vec<u32>> = (0..self.mirrors).map(row).collect();
        LayoutPlan { unit: self.unit, flags, hint, ..LayoutPlan::of_efficiencies(&rows) }.encode().bytes
    }
}

/// Each unit of a round: from its first byte one more than the unit, and from
/// its last byte one more.
fn add_unit_ends(cases: &mut CaseFileWriter, layout: Judged, first_unit: u64, flags: u32) {
    let Judged { unit, stripes, .. } = layout;
    start_with(cases, &[grant(IOMODE_RW, 0, LAST_BYTE, &layout.body(flags, 0))]);
    for number in first_unit..first_unit + stripes.len() as u64 {
        ask(cases, number * unit, unit + 1);
        ask(cases, number * unit + (unit - 1), 2);
    }
}

/// The body that serves is judged, at its own stripe: RW's, or READ's where RW
/// has flag 4 and once RW is recalled.
fn add_both_iomodes(cases: &mut CaseFileWriter, rw: Judged, read: Judged, flags: u32) {
    let bodies = [(IOMODE_RW, rw.body(flags, 0)), (IOMODE_READ, read.body(12 - flags, 0))];
    start_with(cases, &bodies.map(|(iomode, body)| grant(iomode, 0, LAST_BYTE, &body)));
    IN_BOTH.iter().for_each(|&offset| ask(cases, offset, 9));
    cases.event(recall(IOMODE_RW, 0, LAST_BYTE));
    IN_BOTH.iter().for_each(|&offset| cases.locate(IoRequest::read(offset, 9)));
}

/// Grants of RW, of READ or of both, perhaps a recall of RW, and requests at the
/// ends of units; at most [`MOST_IN_JUDGED`] cases.
pub fn random_judged(random: &mut Random) -> Vec<TableCase> {
    let granted = random.pick(&[&[IOMODE_RW][..], &[IOMODE_RW], &[IOMODE_READ], &GRANT_IOMODES]);
    let mut cases = vec![TableCase::Reset];
    let mut units = Vec::new();
    for &iomode in granted {
        let number = random.below(BODIES);
        let first = random.below(20) as u64;
        let last = first + (1 << random.between(12, 40));
        cases.push(TableCase::Event(grant(iomode, first, last, &judged_body(number))));
        units.push(unit_of(number));
    }
    if granted.len() == 2 && random.once_in(3) {
        cases.push(TableCase::Event(recall(IOMODE_RW, 0, LAST_BYTE)));
    }
    for _ in 0..random.between(1, MOST_REQUESTS) {
        let unit = random.pick(&units);
        cases.push(TableCase::Locate(random_request(random, unit)));
    }
    cases
}

/// From an end of a unit or a byte beside it, within the unit and into others.
fn random_request(random: &mut Random, unit: u64) -> IoRequest {
    let start = unit * random.below(UNITS_ASKED) as u64;
    let offset = start + random.pick(&[0, 0, 1, unit - 1, unit - 1]);
    let length = random.pick(&[1, unit - 1, unit, unit + 1, 3 * unit]);
    IoRequest { direction: random.pick(&Direction::BOTH), offset, length }
}

fn unit_of(number: usize) -> u64 {
    UNITS[number % UNITS.len()]
}

/// An accepted body of several mirrors and servers, another one for each
/// number.
fn judged_body(number: usize) -> Vec<u8> {
    let (mirrors, servers) = SHAPES[number % SHAPES.len()];
    let column = |stripe| COLUMNS[(number + stripe * (1 + number % 4)) % COLUMNS.len()];
    let stripes: Vec<Column> = (0..servers).map(column).collect();
    judged(unit_of(number), mirrors, &stripes).body(number as u32 % 16, number as u32)
}

#[cfg(test)]
mod tests {
    use super::*;
    use independent::layout::read_layout_body;
    use std::collections::HashSet;

    #[test]
    fn judged_bodies_are_accepted_and_different() {
        let bodies: HashSet<Vec<u8>> = (0..300).map(judged_body).collect();
        assert_eq!(bodies.len(), 300);
        for body in bodies {
            let layout = read_layout_body(&body).unwrap();
            assert!(layout.mirrors > 1 && layout.servers > 1);
            assert!((252..=1_396).contains(&body.len()), "{} bytes", body.len());
        }
    }
}
