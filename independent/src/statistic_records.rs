//! A record of I/O statistics in the payload of a return-write case: 436 bytes,
//! in which every field has its fixed place and numbers are little-endian.

use crate::fields::Fields;
use crate::statistics::{IoInfo, Latency, OpaqueField, Statistic, Time};

/// The record in front, or nothing where there are fewer than 436 bytes.
pub fn parse_statistic(fields: &mut Fields) -> Option<Statistic> {
    Some(Statistic {
        offset: fields.u64()?,
        length: fields.u64()?,
        stateid: fields.fixed()?,
        read: parse_io_info(fields)?,
        write: parse_io_info(fields)?,
        device_id: fields.fixed()?,
        netid: parse_opaque(fields)?,
        address: parse_opaque(fields)?,
        filehandle: parse_opaque(fields)?,
        read_latency: parse_latency(fields)?,
        write_latency: parse_latency(fields)?,
        duration: parse_time(fields)?,
        local: fields.u32()?,
    })
}

fn parse_io_info(fields: &mut Fields) -> Option<IoInfo> {
    Some(IoInfo { count: fields.u64()?, bytes: fields.u64()? })
}

/// The spare bytes too.
fn parse_opaque<const LIMIT: usize>(fields: &mut Fields) -> Option<OpaqueField<LIMIT>> {
    Some(OpaqueField { length: fields.u32()?, bytes: fields.fixed()? })
}

fn parse_latency(fields: &mut Fields) -> Option<Latency> {
    Some(Latency {
        ops_requested: fields.u64()?,
        bytes_requested: fields.u64()?,
        ops_completed: fields.u64()?,
        bytes_completed: fields.u64()?,
        bytes_not_delivered: fields.u64()?,
        total_busy_time: parse_time(fields)?,
        aggregate_completion_time: parse_time(fields)?,
    })
}

fn parse_time(fields: &mut Fields) -> Option<Time> {
    Some(Time { seconds: i64::from_le_bytes(fields.fixed()?), nanoseconds: fields.u32()? })
}

/// The 436 bytes of a record.
pub fn encode_statistic(statistic: &Statistic) -> Vec<u8> {
    let mut payload = Vec::new();
    payload.extend(statistic.offset.to_le_bytes());
    payload.extend(statistic.length.to_le_bytes());
    payload.extend(statistic.stateid);
    for io_info in [&statistic.read, &statistic.write] {
        payload.extend(io_info.count.to_le_bytes());
        payload.extend(io_info.bytes.to_le_bytes());
    }
    payload.extend(statistic.device_id);
    encode_opaque(&mut payload, &statistic.netid);
    encode_opaque(&mut payload, &statistic.address);
    encode_opaque(&mut payload, &statistic.filehandle);
    for latency in [&statistic.read_latency, &statistic.write_latency] {
        payload.extend(latency.numbers().iter().flat_map(|number| number.to_le_bytes()));
        encode_time(&mut payload, &latency.total_busy_time);
        encode_time(&mut payload, &latency.aggregate_completion_time);
    }
    encode_time(&mut payload, &statistic.duration);
    payload.extend(statistic.local.to_le_bytes());
    payload
}

fn encode_opaque<const LIMIT: usize>(payload: &mut Vec<u8>, field: &OpaqueField<LIMIT>) {
    payload.extend(field.length.to_le_bytes());
    payload.extend(field.bytes);
}

fn encode_time(payload: &mut Vec<u8>, time: &Time) {
    payload.extend(time.seconds.to_le_bytes());
    payload.extend(time.nanoseconds.to_le_bytes());
}

#[cfg(test)]
mod tests {
    use super::*;
    use crate::samples::random::Random;

    /// Bytes that are all different within any 251 of them.
    fn bytes() -> Vec<u8> {
        (0..436u32).map(|place| (place % 251) as u8).collect()
    }

    fn le8(place: usize) -> u64 {
        u64::from_le_bytes(bytes()[place..place + 8].try_into().unwrap())
    }

    fn le4(place: usize) -> u32 {
        u32::from_le_bytes(bytes()[place..place + 4].try_into().unwrap())
    }

    fn time(place: usize) -> Time {
        Time { seconds: le8(place) as i64, nanoseconds: le4(place + 8) }
    }

    fn latency(place: usize) -> Latency {
        Latency {
            ops_requested: le8(place),
            bytes_requested: le8(place + 8),
            ops_completed: le8(place + 16),
            bytes_completed: le8(place + 24),
            bytes_not_delivered: le8(place + 32),
            total_busy_time: time(place + 40),
            aggregate_completion_time: time(place + 52),
        }
    }

    /// The table of places in the paper on the case file.
    #[test]
    fn every_field_has_its_place() {
        let bytes = bytes();
        let mut fields = Fields { rest: &bytes };
        let read = parse_statistic(&mut fields).expect("a record");
        assert!(fields.rest.is_empty());
        assert_eq!((read.offset, read.length), (le8(0), le8(8)));
        assert_eq!(read.stateid[..], bytes[16..32]);
        assert_eq!((read.read.count, read.read.bytes), (le8(32), le8(40)));
        assert_eq!((read.write.count, read.write.bytes), (le8(48), le8(56)));
        assert_eq!(read.device_id[..], bytes[64..80]);
        assert_eq!((read.netid.length, &read.netid.bytes[..]), (le4(80), &bytes[84..92]));
        assert_eq!((read.address.length, &read.address.bytes[..]), (le4(92), &bytes[96..160]));
        assert_eq!((read.filehandle.length, &read.filehandle.bytes[..]), (le4(160), &bytes[164..292]));
        assert_eq!((read.read_latency, read.write_latency), (latency(292), latency(356)));
        assert_eq!((read.duration, read.local), (time(420), le4(432)));
    }

    #[test]
    fn a_record_has_436_bytes() {
        for length in 0..436 {
            assert_eq!(parse_statistic(&mut Fields { rest: &bytes()[..length] }), None, "{length} bytes");
        }
    }

    #[test]
    fn any_bytes_come_back() {
        let mut random = Random::new(78);
        for _ in 0..100 {
            let bytes = random.bytes(436);
            let read = parse_statistic(&mut Fields { rest: &bytes }).expect("a record");
            assert_eq!(encode_statistic(&read), bytes);
        }
    }
}
