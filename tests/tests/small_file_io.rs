//! Reads and writes in a small file, byte by byte: rights come from the model,
//! and stripes are counted instead of computed.

#[path = "support/side_by_side.rs"]
mod side_by_side;

use independent::event::Event;
use independent::io_request::{Direction, IoRequest};
use independent::iomode::Iomode;
use independent::locate::Location;
use independent::model_slots::BodyRight;
use independent::range::LAST_BYTE;
use independent::samples::bodies::LayoutPlan;
use independent::samples::events::{grant, layout_return, recall};
use independent::samples::random::Random;
use side_by_side::SideBySide;
use std::collections::BTreeMap;

/// The bytes that are asked for, and the most that are asked for at once.
const SIZE: usize = 64;
const MOST: usize = 40;
const LISTS: u64 = 40;
const EVENTS_A_LIST: usize = 30;
/// Every so many events all requests are made.
const EVENTS_A_LOOK: usize = 6;

/// A layout: its unit, the efficiencies of its mirrors, each with a number for
/// each server, and its flags.
type Layout = (u64, &'static [&'static [u32]], u32);

/// In most of them the best mirror changes with the stripe.
const LAYOUTS: [Layout; 8] = [
    (3, &[&[1, 9], &[2, 8]], 0),
    (5, &[&[4, 0, 7], &[4, 1, 7]], 8),
    (1, &[&[0, 1, 2, 3]], 4),
    (0, &[&[9], &[1], &[9]], 12),
    (7, &[&[1, 5, 0, 1 << 31, 3], &[1, 6, 0, 9, u32::MAX], &[2, 6, 0, 9, 0]], 0),
    (0, &[&[1]], 0),
    (64, &[&[2, 3], &[3, 2]], 8),
    (10, &[&[1, 2, 1], &[1, 3, 0]], 15),
];

/// The hint, and so the body's last byte, is the layout's number.
fn body(number: usize) -> Vec<u8> {
    let (unit, mirrors, flags) = LAYOUTS[number];
    LayoutPlan { unit, flags, hint: number as u32, ..LayoutPlan::of_efficiencies(mirrors) }.encode().bytes
}

/// For every byte the number of its unit and its server, by counting up.
fn counted(number: usize) -> Vec<(u32, u32)> {
    let (unit, mirrors, _) = LAYOUTS[number];
    let servers = mirrors[0].len();
    let (mut unit_number, mut server, mut used) = (0, 0, 0);
    let mut bytes = Vec::new();
    while bytes.len() < SIZE + MOST {
        if servers > 1 && used == unit {
            used = 0;
            unit_number += 1;
            server = if server + 1 == servers as u32 { 0 } else { server + 1 };
        }
        bytes.push((unit_number, server));
        used += 1;
    }
    bytes
}

/// The mirrors as bits; the best one is the first that no other beats. "each
/// mirror is judged by the efficiency of the server that holds the stripe of
/// the request's first byte" (C-12)
fn chosen_mirrors(number: usize, direction: Direction, stripe: u32) -> u32 {
    let (_, mirrors, flags) = LAYOUTS[number];
    let judged: Vec<u32> = mirrors.iter().map(|servers| servers[stripe as usize]).collect();
    let best = judged.iter().position(|one| judged.iter().all(|other| other <= one));
    let is_chosen = |mirror: usize| (direction == Direction::Write && flags & 8 == 0) || Some(mirror) == best;
    (0..mirrors.len()).filter(|&mirror| is_chosen(mirror)).map(|mirror| 1 << mirror).sum()
}

/// The number of the layout that a byte is granted under.
fn granted_layout(both: &SideBySide, iomode: Iomode, byte: u64) -> Option<usize> {
    match both.model.right_at(iomode, byte) {
        BodyRight::Granted(body) => body.last().map(|&hint| usize::from(hint)),
        _ => None,
    }
}

/// The iomode that serves a byte, and the number of its layout. Where both
/// serve a read, "RW is used" (C-11), so RW is looked at first.
fn serving(both: &SideBySide, direction: Direction, byte: u64) -> Option<(Iomode, usize)> {
    [Iomode::ReadWrite, Iomode::Read].into_iter().find_map(|iomode| {
        let number = granted_layout(both, iomode, byte)?;
        let serves = match (direction, iomode) {
            (Direction::Write, _) => iomode == Iomode::ReadWrite,
            (Direction::Read, Iomode::Read) => true,
            (Direction::Read, Iomode::ReadWrite) => LAYOUTS[number].2 & 4 == 0,
        };
        serves.then_some((iomode, number))
    })
}

/// The answer by the model, byte after byte; nothing stands for 17.
fn expected(both: &SideBySide, request: &IoRequest) -> Option<Location> {
    let IoRequest { direction, offset, length } = *request;
    let (iomode, number) = serving(both, direction, offset)?;
    let right = both.model.right_at(iomode, offset);
    let bytes = counted(number);
    let (unit_number, stripe) = bytes[offset as usize];
    let belongs = |byte: &u64| bytes[*byte as usize].0 == unit_number && both.model.right_at(iomode, *byte) == right;
    let length = (offset..offset + length).take_while(belongs).count() as u64;
    let slot = both.model.slots().number_of(right.body()?)?;
    let mirrors = chosen_mirrors(number, direction, stripe);
    Some(Location { iomode, slot, stripe, offset, length, mirrors })
}

fn event(random: &mut Random) -> Event {
    let first = random.below(SIZE) as u64;
    let last = if random.once_in(8) { LAST_BYTE } else { first + random.below(20) as u64 };
    let iomode = random.pick(&[1, 2, 2]);
    match random.below(8) {
        0 => layout_return(random.pick(&[1, 2, 3]), first, last),
        1 | 2 => recall(iomode, first, last),
        _ => grant(iomode, first, last, &body(random.below(LAYOUTS.len()))),
    }
}

/// Offset and length of every request.
fn requests() -> impl Iterator<Item = (u64, u64)> {
    (0..SIZE as u64).flat_map(|offset| [1, 2, 5, 13, 40].map(|length| (offset, length)))
}

/// Makes every request and counts the answers: 17, or the iomode's number.
fn ask_all(both: &SideBySide, answers: &mut BTreeMap<(&'static str, u32), usize>) {
    for direction in Direction::BOTH {
        for (offset, length) in requests() {
            let request = IoRequest { direction, offset, length };
            let found = both.state.locate(&request);
            assert_eq!(found.ok(), expected(both, &request), "{request:?}");
            let number = match found {
                Ok(location) => location.iomode.number(),
                Err(refusal) => u32::from(refusal.number()),
            };
            *answers.entry((direction.name(), number)).or_default() += 1;
        }
    }
}

/// Puts all lists of events, and looks at what they lead to now and then.
fn for_each_look(mut look: impl FnMut(&SideBySide)) {
    for seed in 0..LISTS {
        let mut random = Random::new(seed);
        let mut both = SideBySide::default();
        for number in 1..=EVENTS_A_LIST {
            both.apply(&event(&mut random));
            if number % EVENTS_A_LOOK == 0 {
                look(&both);
            }
        }
    }
}

#[test]
fn requests_by_the_model() {
    let mut answers = BTreeMap::new();
    for_each_look(|both| ask_all(both, &mut answers));
    let reached: Vec<_> = answers.keys().copied().collect();
    let all = [("read-at", 1), ("read-at", 2), ("read-at", 17), ("write-at", 2), ("write-at", 17)];
    assert_eq!(reached, all);
    assert!(answers.values().all(|&count| count >= 1_000), "{answers:?}");
}

/// Reads and writes of one mirror that name another one than the first servers
/// would give.
#[test]
fn mirrors_change_with_the_stripe() {
    let mut moved = BTreeMap::new();
    for_each_look(|both| {
        for direction in Direction::BOTH {
            for (offset, length) in requests() {
                let Ok(found) = both.state.locate(&IoRequest { direction, offset, length }) else { continue };
                let number = granted_layout(both, found.iomode, offset).expect("a layout");
                if found.mirrors != chosen_mirrors(number, direction, 0) {
                    *moved.entry((direction.name(), found.iomode.number())).or_insert(0) += 1;
                }
            }
        }
    });
    let reached: Vec<_> = moved.keys().copied().collect();
    assert_eq!(reached, [("read-at", 1), ("read-at", 2), ("write-at", 2)]);
    assert!(moved.values().all(|&count| count >= 1_000), "{moved:?}");
}

/// Where RW is granted under a body without flag 4, a read goes where a write
/// of the same bytes goes, to one of its mirrors, whatever READ is there.
#[test]
fn reads_go_where_writes_go() {
    let mut beside_read = 0;
    for_each_look(|both| {
        for (offset, length) in requests() {
            let granted = granted_layout(both, Iomode::ReadWrite, offset);
            if granted.is_none_or(|number| LAYOUTS[number].2 & 4 != 0) {
                continue;
            }
            let [read, write] = Direction::BOTH.map(|direction| {
                let request = IoRequest { direction, offset, length };
                both.state.locate(&request).expect("RW serves both")
            });
            assert_eq!(Location { mirrors: write.mirrors, ..read }, write);
            assert_eq!((read.mirrors.count_ones(), read.mirrors & !write.mirrors), (1, 0));
            beside_read += usize::from(granted_layout(both, Iomode::Read, offset).is_some());
        }
    });
    assert!(beside_read >= 1_000, "{beside_read} of them where READ is granted too");
}

/// A file read and written in pieces: they follow each other up to the end,
/// each in one unit, and there are no more of them than units.
#[test]
fn pieces_cover_a_file() {
    for number in 0..LAYOUTS.len() {
        let mut both = SideBySide::default();
        for iomode in Iomode::BOTH {
            assert_eq!(both.apply(&grant(iomode.number(), 0, LAST_BYTE, &body(number))), 0);
        }
        let bytes = counted(number);
        for (direction, start) in [(Direction::Read, 0), (Direction::Write, 8)] {
            let (mut offset, mut pieces) = (start, 0);
            while offset < SIZE {
                let length = (SIZE - offset) as u64;
                let request = IoRequest { direction, offset: offset as u64, length };
                let found = both.state.locate(&request).unwrap();
                let end = offset + found.length as usize;
                assert!(offset < end && end <= SIZE);
                assert!(bytes[offset..end].iter().all(|byte| *byte == bytes[offset]));
                assert_eq!(found.stripe, bytes[offset].1);
                (offset, pieces) = (end, pieces + 1);
            }
            assert_eq!(pieces, bytes[SIZE - 1].0 - bytes[start].0 + 1);
        }
    }
}
