//! What records of I/O statistics hold, their bytes, and random ones.

use super::bodies::{encode_reports, fixed_pattern, ReportPlan};
use super::random::Random;
use super::wire::{pattern, Item, Opaque, Wire};
use crate::statistics::{IoInfo, Latency, OpaqueField, Statistic, Time};

/// The largest time that is accepted.
pub const LARGEST_TIME: TimePlan = ((1 << 63) - 1, 999_999_999);

/// Seconds, as the number that its 8 bytes are, and nanoseconds.
pub type TimePlan = (u64, u32);

/// What one record holds. Its netid, address and filehandle may be longer than
/// allowed.
#[derive(Clone, Debug, PartialEq, Eq)]
pub struct StatisticPlan {
    pub offset: u64,
    pub length: u64,
    pub stateid: [u8; 16],
    /// Count and bytes of the reads, then of the writes.
    pub transfers: [u64; 4],
    pub device_id: [u8; 16],
    pub netid: Vec<u8>,
    pub address: Vec<u8>,
    pub filehandle: Vec<u8>,
    /// The five numbers of the reads' latency, then of the writes'.
    pub latency_numbers: [[u64; 5]; 2],
    /// The five times, in the order of the wire.
    pub times: [TimePlan; 5],
    pub local: u32,
}

impl StatisticPlan {
    /// A record of 248 bytes, the fewest.
    pub fn smallest(number: u8) -> Self {
        StatisticPlan::sized(number, 1, 1, 1)
    }

    /// A record of 436 bytes, the most.
    pub fn largest(number: u8) -> Self {
        StatisticPlan::sized(number, 8, 64, 128)
    }

    /// A record whose opaque items have the given lengths, and whose numbers
    /// all differ.
    pub fn sized(number: u8, netid: usize, address: usize, filehandle: usize) -> Self {
        let base = u64::from(number) << 40;
        let time = |place: u64| (base + 200 + place, u32::from(number) * 1_000 + 300 + place as u32);
        StatisticPlan {
            offset: base + 4_096,
            length: base + 8_192,
            stateid: fixed_pattern(number.wrapping_add(60)),
            transfers: [base + 1, base + 2, base + 3, base + 4],
            device_id: fixed_pattern(number.wrapping_add(70)),
            netid: pattern(number.wrapping_add(80), netid),
            address: pattern(number.wrapping_add(90), address),
            filehandle: pattern(number.wrapping_add(110), filehandle),
            latency_numbers: [11, 21].map(|first| std::array::from_fn(|place| base + first + place as u64)),
            times: [time(0), time(1), time(2), time(3), time(4)],
            local: u32::from(number % 2),
        }
    }

    /// An accepted record of any numbers; spans of bytes and of time are often
    /// at their limits, and so are lengths.
    pub fn random(random: &mut Random) -> Self {
        let mut content = |limits: &[usize]| {
            let length = if random.once_in(2) { random.between(1, limits[0]) } else { random.pick(limits) };
            random.bytes(length)
        };
        let (netid, address, filehandle) = (content(&[8, 1, 3]), content(&[64, 1, 13]), content(&[128, 1, 20]));
        let (offset, length) = random_range(random);
        StatisticPlan {
            offset,
            length,
            stateid: random.fixed(),
            transfers: std::array::from_fn(|_| random.next_u64()),
            device_id: random.fixed(),
            netid,
            address,
            filehandle,
            latency_numbers: std::array::from_fn(|_| std::array::from_fn(|_| random.next_u64())),
            times: std::array::from_fn(|_| random_time(random)),
            local: random.below(2) as u32,
        }
    }

    pub fn encode(&self, wire: &mut Wire) {
        wire.uhyper(Item::StatisticOffset, self.offset);
        wire.uhyper(Item::StatisticLength, self.length);
        wire.fixed(Item::StatisticStateid, &self.stateid);
        for number in self.transfers {
            wire.uhyper(Item::Transfer, number);
        }
        wire.fixed(Item::StatisticDeviceId, &self.device_id);
        wire.opaque(Opaque::Netid, &self.netid);
        wire.opaque(Opaque::Address, &self.address);
        wire.opaque(Opaque::Filehandle, &self.filehandle);
        for (numbers, times) in self.latency_numbers.iter().zip(self.times.chunks(2)) {
            for &number in numbers {
                wire.uhyper(Item::LatencyNumber, number);
            }
            times.iter().for_each(|time| encode_time(wire, time));
        }
        encode_time(wire, &self.times[4]);
        wire.uint(Item::Local, self.local);
    }

    /// The record as it is handed over to be written, with this byte in every
    /// spare place. A content that is too long is cut, its length is not.
    pub fn record(&self, spare: u8) -> Statistic {
        let [read_count, read_bytes, write_count, write_bytes] = self.transfers;
        Statistic {
            offset: self.offset,
            length: self.length,
            stateid: self.stateid,
            read: IoInfo { count: read_count, bytes: read_bytes },
            write: IoInfo { count: write_count, bytes: write_bytes },
            device_id: self.device_id,
            netid: field(&self.netid, spare),
            address: field(&self.address, spare),
            filehandle: field(&self.filehandle, spare),
            read_latency: latency(&self.latency_numbers[0], &self.times[..2]),
            write_latency: latency(&self.latency_numbers[1], &self.times[2..4]),
            duration: time(&self.times[4]),
            local: self.local,
        }
    }
}

fn encode_time(wire: &mut Wire, (seconds, nanoseconds): &TimePlan) {
    wire.uhyper(Item::Seconds, *seconds);
    wire.uint(Item::Nanoseconds, *nanoseconds);
}

fn random_range(random: &mut Random) -> (u64, u64) {
    let offset = random.next_u64() >> random.below(64);
    let to_the_end = u64::MAX - offset;
    let length = match random.below(4) {
        0 => u64::MAX,
        1 => to_the_end.max(1),
        _ => 1 + random.next_u64() % to_the_end.max(1),
    };
    (offset, length)
}

fn random_time(random: &mut Random) -> TimePlan {
    let seconds = if random.once_in(4) { LARGEST_TIME.0 } else { random.next_u64() >> random.between(1, 63) };
    let nanoseconds = if random.once_in(4) { LARGEST_TIME.1 } else { random.below(1_000_000_000) as u32 };
    (seconds, nanoseconds)
}

fn field<const LIMIT: usize>(content: &[u8], spare: u8) -> OpaqueField<LIMIT> {
    let mut field = OpaqueField { length: content.len() as u32, bytes: [spare; LIMIT] };
    for (place, &byte) in field.bytes.iter_mut().zip(content) {
        *place = byte;
    }
    field
}

fn latency(numbers: &[u64; 5], times: &[TimePlan]) -> Latency {
    let [ops_requested, bytes_requested, ops_completed, bytes_completed, bytes_not_delivered] = *numbers;
    Latency {
        ops_requested,
        bytes_requested,
        ops_completed,
        bytes_completed,
        bytes_not_delivered,
        total_busy_time: time(&times[0]),
        aggregate_completion_time: time(&times[1]),
    }
}

fn time((seconds, nanoseconds): &TimePlan) -> Time {
    Time { seconds: *seconds as i64, nanoseconds: *nanoseconds }
}

/// The body of an `ff_layoutreturn4` with these reports and statistics.
pub fn encode_layout_return(reports: &[ReportPlan], statistics: &[StatisticPlan]) -> Wire {
    let mut wire = encode_reports(reports, statistics.len() as u32);
    statistics.iter().for_each(|statistic| statistic.encode(&mut wire));
    wire
}
