//! Single records, read and written.

use super::*;
use crate::samples::random::Random;
use crate::samples::statistics::{StatisticPlan, LARGEST_TIME};
use crate::samples::wire::{extended, overwritten, Item, Opaque, Wire};

/// Seconds above the largest, and nanoseconds above theirs.
const BAD_SECONDS: [u64; 3] = [1 << 63, (1 << 63) + 1, u64::MAX];
const BAD_NANOSECONDS: [u32; 3] = [1_000_000_000, 1_000_000_001, u32::MAX];
/// The opaque items and the most bytes that each may have.
const OPAQUES: [(Opaque, usize); 3] = [(Opaque::Netid, 8), (Opaque::Address, 64), (Opaque::Filehandle, 128)];

fn wire(plan: &StatisticPlan) -> Wire {
    let mut wire = Wire::default();
    plan.encode(&mut wire);
    wire
}

/// Reads bytes that are one record and nothing else.
fn read(bytes: &[u8]) -> Result<Statistic, u8> {
    let mut cursor = Cursor::new(bytes);
    let statistic = Statistic::read(&mut cursor).map_err(Refusal::number)?;
    cursor.finish().map_err(Refusal::number)?;
    Ok(statistic)
}

fn refusal(bytes: &[u8]) -> Option<u8> {
    read(bytes).err()
}

fn judged(plan: &StatisticPlan) -> Option<u8> {
    plan.record(165).check().err().map(Refusal::number)
}

/// The refusal of a plan that is read, which is also that of writing it.
fn both_ways(plan: &StatisticPlan) -> Option<u8> {
    let read = refusal(&wire(plan).bytes);
    assert_eq!(judged(plan), read);
    read
}

fn written(statistic: &Statistic) -> Vec<u8> {
    let mut bytes = vec![165; statistic.size()];
    let mut rest = bytes.as_mut_slice();
    statistic.put(&mut rest);
    assert!(rest.is_empty(), "{} bytes of the size are not written", rest.len());
    bytes
}

/// A plan whose opaque item is this one.
fn with_content(plan: &StatisticPlan, opaque: Opaque, content: Vec<u8>) -> StatisticPlan {
    let mut plan = plan.clone();
    match opaque {
        Opaque::Netid => plan.netid = content,
        Opaque::Address => plan.address = content,
        Opaque::Filehandle => plan.filehandle = content,
        other => panic!("no record has the item {other:?}"),
    }
    plan
}

/// Big-endian numbers behind one another: 8 bytes each.
fn numbers(values: &[u64]) -> Vec<u8> {
    values.iter().flat_map(|value| value.to_be_bytes()).collect()
}

/// RFC 8435 sections 9.2.1 to 9.2.3, item after item.
#[test]
fn a_record_byte_for_byte() {
    let time = |seconds: u8, nanoseconds: u8| [0, 0, 0, 0, 0, 0, 0, seconds, 0, 0, 0, nanoseconds];
    let mut bytes = numbers(&[4_096, 8_192]);
    bytes.extend([7; 16]);
    bytes.extend(numbers(&[1, 2, 3, 4]));
    bytes.extend([9; 16]);
    bytes.extend(b"\0\0\0\x03tcp\0");
    bytes.extend(b"\0\0\0\x0d10.99.0.1.8.1\0\0\0");
    bytes.extend(b"\0\0\0\x04\xf1\xf2\xf3\xf4");
    bytes.extend(numbers(&[11, 12, 13, 14, 15]));
    bytes.extend(time(21, 22));
    bytes.extend(time(23, 24));
    bytes.extend(numbers(&[31, 32, 33, 34, 35]));
    bytes.extend(time(41, 42));
    bytes.extend(time(43, 44));
    bytes.extend(time(51, 52));
    bytes.extend([0, 0, 0, 1]);
    let statistic = StatisticPlan {
        offset: 4_096,
        length: 8_192,
        stateid: [7; 16],
        transfers: [1, 2, 3, 4],
        device_id: [9; 16],
        netid: b"tcp".to_vec(),
        address: b"10.99.0.1.8.1".to_vec(),
        filehandle: vec![0xf1, 0xf2, 0xf3, 0xf4],
        latency_numbers: [[11, 12, 13, 14, 15], [31, 32, 33, 34, 35]],
        times: [(21, 22), (23, 24), (41, 42), (43, 44), (51, 52)],
        local: 1,
    };
    assert_eq!(read(&bytes), Ok(statistic.record(0)));
    assert_eq!(written(&statistic.record(165)), bytes);
    assert_eq!(wire(&statistic).bytes, bytes);
}

#[test]
fn a_record_has_248_to_436_bytes() {
    for (plan, size) in [(StatisticPlan::smallest(1), 248), (StatisticPlan::largest(2), 436)] {
        assert_eq!(wire(&plan).bytes.len(), size);
        assert_eq!(plan.record(165).size(), size);
        assert_eq!(both_ways(&plan), None);
    }
}

#[test]
fn seconds_and_nanoseconds_have_their_limits_at_each_time() {
    for place in 0..5 {
        let mut plan = StatisticPlan::smallest(3);
        for good in [(0, 0), LARGEST_TIME, ((1 << 63) - 1, 0), (0, 999_999_999)] {
            plan.times[place] = good;
            assert_eq!(both_ways(&plan), None, "time {place}: {good:?}");
        }
        for seconds in BAD_SECONDS {
            plan.times[place] = (seconds, 0);
            assert_eq!(both_ways(&plan), Some(28), "time {place}: {seconds} seconds");
        }
        for nanoseconds in BAD_NANOSECONDS {
            plan.times[place] = (0, nanoseconds);
            assert_eq!(both_ways(&plan), Some(28), "time {place}: {nanoseconds} nanoseconds");
        }
    }
}

#[test]
fn a_time_is_judged_when_both_parts_are_read() {
    for place in 0..5 {
        for bad in [(1 << 63, 0), (0, 1_000_000_000)] {
            let mut plan = StatisticPlan::smallest(3);
            plan.times[place] = bad;
            let wire = wire(&plan);
            let start = wire.offsets(Item::Seconds)[place];
            assert_eq!(refusal(&wire.bytes[..start + 11]), Some(1));
            assert_eq!(refusal(&wire.bytes[..start + 12]), Some(28));
        }
    }
}

#[test]
fn lengths_have_their_limits() {
    let plan = StatisticPlan::smallest(4);
    for (opaque, most) in OPAQUES {
        for good in [1, most - 1, most] {
            assert_eq!(both_ways(&with_content(&plan, opaque, vec![5; good])), None, "{opaque:?} of {good}");
        }
        for bad in [0, most + 1] {
            assert_eq!(both_ways(&with_content(&plan, opaque, vec![5; bad])), Some(8), "{opaque:?} of {bad}");
        }
        // Judged before any byte behind it is looked for.
        for bad in [0, most as u32 + 1, 1 << 31, u32::MAX] {
            let bytes = wire(&plan).with_uint(Item::LengthOf(opaque), 0, bad);
            let end = wire(&plan).offsets(Item::LengthOf(opaque))[0] + 4;
            assert_eq!(refusal(&bytes[..end]), Some(8));
        }
    }
}

/// No sum or slice may be made of a length before it is judged.
#[test]
fn the_longest_lengths_can_be_judged() {
    let mut record = StatisticPlan::smallest(4).record(0);
    record.filehandle.length = u32::MAX;
    assert_eq!(record.check(), Err(Refusal::OutsideLimit));
    record.address.length = 1 << 31;
    assert_eq!(record.check(), Err(Refusal::OutsideLimit));
    record.netid.length = u32::MAX - 3;
    assert_eq!(record.check(), Err(Refusal::OutsideLimit));
}

#[test]
fn padding_is_zero() {
    for length in 1..=8 {
        for (opaque, _) in OPAQUES {
            let wire = wire(&with_content(&StatisticPlan::largest(5), opaque, vec![5; length]));
            let padding = wire.offsets(Item::PaddingOf(opaque));
            assert_eq!(padding.is_empty(), length % 4 == 0);
            for place in padding.into_iter().flat_map(|start| start..start.next_multiple_of(4)) {
                assert_eq!(refusal(&overwritten(&wire.bytes, place, &[1])), Some(6), "{opaque:?} of {length}");
            }
        }
    }
}

#[test]
fn tcp_has_one_byte_of_padding() {
    let wire = wire(&with_content(&StatisticPlan::smallest(6), Opaque::Netid, b"tcp".to_vec()));
    let padding = wire.offsets(Item::ContentOf(Opaque::Netid))[0] + 3;
    assert_eq!(refusal(&wire.bytes), None);
    assert_eq!(refusal(&overwritten(&wire.bytes, padding, &[128])), Some(6));
    assert_eq!(refusal(&wire.bytes[..padding]), Some(1));
    // What follows the padding is the address's length.
    assert_eq!(refusal(&overwritten(&wire.bytes, padding + 1, &[1])), Some(8));
}

#[test]
fn local_is_a_boolean() {
    let mut plan = StatisticPlan::smallest(7);
    for (local, expected) in [(0, None), (1, None), (2, Some(7)), (256, Some(7)), (u32::MAX, Some(7))] {
        plan.local = local;
        assert_eq!(both_ways(&plan), expected, "local {local}");
    }
}

/// The rule of ranges, in which the length 2^64 - 1 is special, and not that of
/// requests.
#[test]
fn the_range_has_the_scope_papers_rule() {
    const MAX: u64 = u64::MAX;
    let mut plan = StatisticPlan::smallest(8);
    for (offset, length) in [(0, 1), (0, MAX), (7, MAX), (MAX, MAX), (1, MAX - 1), (MAX - 1, 1)] {
        (plan.offset, plan.length) = (offset, length);
        assert_eq!(both_ways(&plan), None, "{offset} {length}");
    }
    for (offset, length) in [(0, 0), (MAX, 0), (MAX, 1), (2, MAX - 1), (1 << 63, 1 << 63)] {
        (plan.offset, plan.length) = (offset, length);
        assert_eq!(both_ways(&plan), Some(5), "{offset} {length}");
        let bytes = wire(&plan).bytes;
        assert_eq!((refusal(&bytes[..15]), refusal(&bytes[..16])), (Some(1), Some(5)));
    }
}

#[test]
fn a_record_that_is_cut_anywhere_runs_out() {
    for plan in [StatisticPlan::smallest(9), StatisticPlan::sized(10, 3, 13, 20)] {
        let bytes = wire(&plan).bytes;
        for length in 0..bytes.len() {
            assert_eq!(refusal(&bytes[..length]), Some(1), "cut to {length}");
        }
        assert_eq!(refusal(&extended(&bytes, &[0])), Some(2));
    }
}

#[test]
fn no_other_number_of_a_record_is_judged() {
    let mut plan = StatisticPlan::smallest(11);
    plan.stateid = [255; 16];
    plan.device_id = [0; 16];
    plan.transfers = [u64::MAX; 4];
    plan.latency_numbers = [[u64::MAX; 5]; 2];
    plan.netid = vec![0; 8];
    plan.address = vec![255; 64];
    plan.filehandle = vec![0; 128];
    assert_eq!(both_ways(&plan), None);
    assert_eq!(read(&wire(&plan).bytes), Ok(plan.record(0)));
}

/// A fault that a record can have, with its number, in the order of the wire.
type Fault = (u8, fn(&mut StatisticPlan));

const FAULTS: [Fault; 10] = [
    (5, |plan| plan.length = 0),
    (8, |plan| plan.netid = vec![1; 9]),
    (8, |plan| plan.address = Vec::new()),
    (8, |plan| plan.filehandle = vec![1; 129]),
    (28, |plan| plan.times[0] = (1 << 63, 0)),
    (28, |plan| plan.times[1] = (0, 1_000_000_000)),
    (28, |plan| plan.times[2] = (u64::MAX, 0)),
    (28, |plan| plan.times[3] = (0, u32::MAX)),
    (28, |plan| plan.times[4] = (u64::MAX, u32::MAX)),
    (7, |plan| plan.local = 2),
];

#[test]
fn the_first_of_two_faults_decides() {
    for (earlier, (number, inject)) in FAULTS.iter().enumerate() {
        for (_, inject_later) in &FAULTS[earlier..] {
            let mut plan = StatisticPlan::sized(12, 3, 13, 20);
            inject_later(&mut plan);
            inject(&mut plan);
            assert_eq!(both_ways(&plan), Some(*number));
        }
    }
}

#[test]
fn padding_is_met_in_front_of_later_faults() {
    for (number, inject) in &FAULTS[4..] {
        let mut plan = StatisticPlan::sized(12, 3, 13, 20);
        inject(&mut plan);
        let wire = wire(&plan);
        assert_eq!(refusal(&wire.bytes), Some(*number));
        let padding = wire.offsets(Item::PaddingOf(Opaque::Address))[0];
        assert_eq!(refusal(&overwritten(&wire.bytes, padding, &[1])), Some(6));
    }
}

#[test]
fn spare_bytes_are_neither_written_nor_read() {
    for plan in [StatisticPlan::smallest(13), StatisticPlan::sized(14, 3, 13, 20)] {
        let bytes = wire(&plan).bytes;
        for spare in [0, 1, 165, 255] {
            assert_eq!(written(&plan.record(spare)), bytes);
        }
        let read = read(&bytes).expect("a record");
        assert_eq!(read.netid.bytes[plan.netid.len()..], [0; 8][plan.netid.len()..]);
        assert_eq!(read.address.bytes[plan.address.len()..], [0; 64][plan.address.len()..]);
        assert_eq!(read.filehandle.bytes[plan.filehandle.len()..], [0; 128][plan.filehandle.len()..]);
    }
}

#[test]
fn random_records_come_back_both_ways() {
    let mut random = Random::new(13);
    for _ in 0..500 {
        let plan = StatisticPlan::random(&mut random);
        let bytes = wire(&plan).bytes;
        assert_eq!(written(&plan.record(random.next_u64() as u8)), bytes);
        let statistic = read(&bytes).expect("an accepted record");
        assert_eq!(statistic, plan.record(0));
        assert_eq!(written(&statistic), bytes);
    }
}
