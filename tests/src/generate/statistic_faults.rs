//! The faults that one record of I/O statistics can have.

use independent::samples::random::Random;
use independent::samples::statistics::StatisticPlan;
use independent::samples::wire::{overwritten, Item, Opaque, Wire};

/// The opaque items of a record, and the most bytes that each may have.
pub const OPAQUES: [(Opaque, usize); 3] = [(Opaque::Netid, 8), (Opaque::Address, 64), (Opaque::Filehandle, 128)];

/// A fault that a record can have where it is read and where it is written. A
/// time is named by its number in the order of the wire.
#[derive(Clone, Copy, Debug, PartialEq, Eq)]
pub enum Fault {
    Range,
    Empty(Opaque),
    TooLong(Opaque),
    Seconds(usize),
    Nanoseconds(usize),
    Local,
}

/// 8: below and above each limit.
pub const LENGTHS: [Fault; 6] = [
    Fault::Empty(Opaque::Netid),
    Fault::TooLong(Opaque::Netid),
    Fault::Empty(Opaque::Address),
    Fault::TooLong(Opaque::Address),
    Fault::Empty(Opaque::Filehandle),
    Fault::TooLong(Opaque::Filehandle),
];

/// 28: either part of each time.
pub const TIMES: [Fault; 10] = [
    Fault::Seconds(0),
    Fault::Nanoseconds(0),
    Fault::Seconds(1),
    Fault::Nanoseconds(1),
    Fault::Seconds(2),
    Fault::Nanoseconds(2),
    Fault::Seconds(3),
    Fault::Nanoseconds(3),
    Fault::Seconds(4),
    Fault::Nanoseconds(4),
];

/// Seconds that are negative as signed numbers.
const BAD_SECONDS: [u64; 4] = [1 << 63, (1 << 63) + 1, u64::MAX - 1, u64::MAX];
/// Nanoseconds of a second and more; the last ones are negative if signed.
const BAD_NANOSECONDS: [u32; 5] = [1_000_000_000, 1_000_000_001, (1 << 31) - 1, 1 << 31, u32::MAX];
/// Numbers that are no boolean.
const BAD_BOOLEANS: [u32; 6] = [2, 3, 255, 256, 1 << 24, u32::MAX];

/// Any fault of a record.
pub fn any_fault(random: &mut Random) -> Fault {
    match random.below(4) {
        0 => Fault::Range,
        1 => random.pick(&LENGTHS),
        2 => random.pick(&TIMES),
        _ => Fault::Local,
    }
}

/// A range that breaks the rule: without a byte, or beyond the last byte.
pub fn bad_range(random: &mut Random) -> (u64, u64) {
    let (any, to_the_end) = (random.next_u64(), random.next_u64() % (1 << 20));
    let one_too_long = (u64::MAX - to_the_end, to_the_end + 1);
    random.pick(&[(0, 0), (any, 0), (u64::MAX, 1), (2, u64::MAX - 1), (1 << 63, 1 << 63), one_too_long])
}

/// A time that keeps the rule, often at a limit of it.
fn good_time(random: &mut Random) -> (u64, u32) {
    let seconds = random.next_u64() >> random.between(1, 63);
    let nanoseconds = random.below(1_000_000_000) as u32;
    (random.pick(&[0, (1 << 63) - 1, seconds]), random.pick(&[0, 999_999_999, nanoseconds]))
}

impl Fault {
    pub fn inject(self, plan: &mut StatisticPlan, random: &mut Random) {
        match self {
            Fault::Range => (plan.offset, plan.length) = bad_range(random),
            Fault::Empty(opaque) => content(plan, opaque).clear(),
            Fault::TooLong(opaque) => {
                let limit = OPAQUES.iter().find(|row| row.0 == opaque).expect("an item of a record").1;
                let more = random.pick(&[1, 1, 4]);
                *content(plan, opaque) = random.bytes(limit + more);
            }
            Fault::Seconds(place) => {
                let negative = random.next_u64() | 1 << 63;
                let seconds = if random.once_in(3) { negative } else { random.pick(&BAD_SECONDS) };
                plan.times[place] = (seconds, good_time(random).1);
            }
            Fault::Nanoseconds(place) => {
                plan.times[place] = (good_time(random).0, random.pick(&BAD_NANOSECONDS));
            }
            Fault::Local => plan.local = random.pick(&BAD_BOOLEANS),
        }
    }
}

/// The bytes of an opaque item.
fn content(plan: &mut StatisticPlan, opaque: Opaque) -> &mut Vec<u8> {
    match opaque {
        Opaque::Netid => &mut plan.netid,
        Opaque::Address => &mut plan.address,
        Opaque::Filehandle => &mut plan.filehandle,
        other => panic!("no record has the item {other:?}"),
    }
}

/// A record of small size in which every opaque item has padding.
pub fn padded(random: &mut Random) -> StatisticPlan {
    let [netid, address, filehandle] = [0; 3].map(|_| random.between(1, 3));
    StatisticPlan::sized(random.next_u64() as u8, netid, address, filehandle)
}

/// Such a record with these faults.
pub fn with_faults(faults: &[Fault], random: &mut Random) -> StatisticPlan {
    let mut plan = padded(random);
    faults.iter().for_each(|fault| fault.inject(&mut plan, random));
    plan
}

/// The body with another byte somewhere in one padding of a record.
pub fn with_bad_padding(wire: &Wire, record: usize, opaque: Opaque, random: &mut Random) -> Vec<u8> {
    let start = wire.offsets(Item::PaddingOf(opaque))[record];
    let place = random.between(start, start.next_multiple_of(4) - 1);
    overwritten(&wire.bytes, place, &[random.pick(&[1, 128, 255])])
}

/// The items of one record, each with the bytes from its start to its end; what
/// an opaque item holds and its padding are one.
pub fn items_of_record(wire: &Wire, record: usize) -> Vec<(usize, usize)> {
    let starts = wire.offsets(Item::StatisticOffset);
    let end = starts.get(record + 1).copied().unwrap_or(wire.bytes.len());
    let paddings = OPAQUES.map(|(opaque, _)| wire.offsets(Item::PaddingOf(opaque))).concat();
    let in_record = |place: &usize| (starts[record]..end).contains(place) && !paddings.contains(place);
    let mut places: Vec<usize> = wire.item_offsets().into_iter().filter(in_record).collect();
    places.push(end);
    places.windows(2).map(|pair| (pair[0], pair[1])).collect()
}
