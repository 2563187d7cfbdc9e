//! The cases that concern the table and its store, and their payloads.

use crate::event::{Event, RangeNumbers};
use crate::fields::Fields;
use crate::io_request::{Direction, IoRequest};
use crate::iomode::Iomode;
use crate::segments::{Right, Segment};
use crate::store::STORE_LENGTH;
use crate::table::SEGMENT_LIMIT;

/// The largest slot number that a set-segment case may hold; from 8 on it names
/// no slot.
pub const SET_SLOT_LIMIT: u32 = 255;

/// The kinds of case, by their numbers in the file.
pub mod kind {
    pub const GRANT: u16 = 1;
    pub const RECALL: u16 = 4;
    pub const REVOKE: u16 = 5;
    pub const RETURN: u16 = 9;
    pub const READ_AT: u16 = 70;
    pub const WRITE_AT: u16 = 71;
    pub const SHOW_TABLE: u16 = 72;
    pub const SHOW_STORE: u16 = 73;
    pub const SET_BYTE: u16 = 74;
    pub const SET_SEGMENT: u16 = 75;
    pub const RESET: u16 = 76;
    pub const SET_BORROWED: u16 = 77;
}

/// A case that asks or changes what the program keeps.
#[derive(Clone, Debug, PartialEq, Eq)]
pub enum TableCase {
    Event(Event),
    Locate(IoRequest),
    ShowTable,
    ShowStore,
    SetByte { offset: usize, value: u8 },
    SetSegment { iomode: Iomode, index: usize, segment: Segment },
    Reset,
    SetBorrowed(usize),
}

/// A payload of the given kind, or nothing where it does not have its form.
pub fn parse_table_case(kind: u16, payload: &[u8]) -> Option<TableCase> {
    if kind == kind::GRANT {
        return Some(TableCase::Event(Event::Grant(payload.to_vec())));
    }
    let mut fields = Fields { rest: payload };
    let case = match kind {
        kind::RETURN => TableCase::Event(Event::Return(parse_numbers(&mut fields)?)),
        kind::RECALL => TableCase::Event(Event::Recall(parse_numbers(&mut fields)?)),
        kind::REVOKE => TableCase::Event(Event::Revoke),
        kind::READ_AT => TableCase::Locate(parse_request(&mut fields, Direction::Read)?),
        kind::WRITE_AT => TableCase::Locate(parse_request(&mut fields, Direction::Write)?),
        kind::SHOW_TABLE => TableCase::ShowTable,
        kind::SHOW_STORE => TableCase::ShowStore,
        kind::SET_BYTE => parse_set_byte(&mut fields)?,
        kind::SET_SEGMENT => parse_set_segment(&mut fields)?,
        kind::RESET => TableCase::Reset,
        kind::SET_BORROWED => TableCase::SetBorrowed(fields.u32_up_to(STORE_LENGTH as u32)? as usize),
        _ => return None,
    };
    fields.rest.is_empty().then_some(case)
}

/// "offset (LE8), length (LE8), iomode (LE4)"
fn parse_numbers(fields: &mut Fields) -> Option<RangeNumbers> {
    Some(RangeNumbers { offset: fields.u64()?, length: fields.u64()?, iomode: fields.u32()? })
}

/// "offset (LE8), length (LE8)"
fn parse_request(fields: &mut Fields, direction: Direction) -> Option<IoRequest> {
    Some(IoRequest { direction, offset: fields.u64()?, length: fields.u64()? })
}

/// "place (LE4, below 32,768), value (1)"
fn parse_set_byte(fields: &mut Fields) -> Option<TableCase> {
    let offset = fields.u32_up_to(STORE_LENGTH as u32 - 1)? as usize;
    let [value] = fields.fixed()?;
    Some(TableCase::SetByte { offset, value })
}

/// "iomode (LE4, 1 or 2), place (LE4, below 32), first (LE8), last (LE8), right
/// (LE4: 0 none, 1 granted, 2 recalled), slot (LE4, at most 255; no matter where
/// the right is none)"
fn parse_set_segment(fields: &mut Fields) -> Option<TableCase> {
    let iomode = Iomode::single(fields.u32()?)?;
    let index = fields.u32_up_to(SEGMENT_LIMIT as u32 - 1)? as usize;
    let (first, last) = (fields.u64()?, fields.u64()?);
    let right = fields.u32()?;
    let slot = fields.u32_up_to(SET_SLOT_LIMIT)?;
    let right = match right {
        0 => Right::None,
        1 => Right::Granted(slot),
        2 => Right::Recalled(slot),
        _ => return None,
    };
    Some(TableCase::SetSegment { iomode, index, segment: Segment { first, last, right } })
}

/// The kind and the payload of a case.
pub fn encode_table_case(case: &TableCase) -> (u16, Vec<u8>) {
    match case {
        TableCase::Event(Event::Grant(layout4)) => (kind::GRANT, layout4.clone()),
        TableCase::Event(Event::Return(numbers)) => (kind::RETURN, encode_numbers(numbers)),
        TableCase::Event(Event::Recall(numbers)) => (kind::RECALL, encode_numbers(numbers)),
        TableCase::Event(Event::Revoke) => (kind::REVOKE, Vec::new()),
        TableCase::Locate(request) => (kind_of(request.direction), encode_request(request)),
        TableCase::ShowTable => (kind::SHOW_TABLE, Vec::new()),
        TableCase::ShowStore => (kind::SHOW_STORE, Vec::new()),
        TableCase::SetByte { offset, value } => {
            (kind::SET_BYTE, [&(*offset as u32).to_le_bytes()[..], &[*value]].concat())
        }
        TableCase::SetSegment { iomode, index, segment } => {
            (kind::SET_SEGMENT, encode_segment(*iomode, *index, segment))
        }
        TableCase::Reset => (kind::RESET, Vec::new()),
        TableCase::SetBorrowed(length) => (kind::SET_BORROWED, (*length as u32).to_le_bytes().to_vec()),
    }
}

fn encode_numbers(numbers: &RangeNumbers) -> Vec<u8> {
    let RangeNumbers { offset, length, iomode } = numbers;
    [&offset.to_le_bytes()[..], &length.to_le_bytes(), &iomode.to_le_bytes()].concat()
}

fn kind_of(direction: Direction) -> u16 {
    match direction {
        Direction::Read => kind::READ_AT,
        Direction::Write => kind::WRITE_AT,
    }
}

fn encode_request(request: &IoRequest) -> Vec<u8> {
    [request.offset.to_le_bytes(), request.length.to_le_bytes()].concat()
}

fn encode_segment(iomode: Iomode, index: usize, segment: &Segment) -> Vec<u8> {
    let (right, slot) = match segment.right {
        Right::None => (0_u32, 0),
        Right::Granted(slot) => (1, slot),
        Right::Recalled(slot) => (2, slot),
    };
    let mut payload = Vec::new();
    payload.extend(iomode.number().to_le_bytes());
    payload.extend((index as u32).to_le_bytes());
    payload.extend(segment.first.to_le_bytes());
    payload.extend(segment.last.to_le_bytes());
    payload.extend(right.to_le_bytes());
    payload.extend(slot.to_le_bytes());
    payload
}

#[cfg(test)]
mod tests {
    use super::*;

    fn has_form(kind: u16, payload: &[u8]) -> bool {
        parse_table_case(kind, payload).is_some()
    }

    #[test]
    fn payloads_have_their_exact_length() {
        let lengths = [(4, 20), (5, 0), (9, 20), (70, 16), (71, 16), (72, 0), (73, 0), (74, 5)];
        for (kind, length) in lengths.into_iter().chain([(76, 0), (77, 4)]) {
            for other in 0..40 {
                assert_eq!(has_form(kind, &vec![0; other]), other == length, "{kind} {other}");
            }
        }
        let segment = [[1, 0, 0, 0].as_slice(), &[0; 30]].concat();
        for length in 0..=segment.len() {
            assert_eq!(has_form(75, &segment[..length]), length == 32);
        }
        for length in [0, 1, 107, 4_120, 16_000] {
            assert!(has_form(1, &vec![0; length]));
        }
    }

    #[test]
    fn numbers_have_their_limits() {
        assert!(has_form(74, &[255, 127, 0, 0, 1]));
        assert!(!has_form(74, &[0, 128, 0, 0, 1]));
        assert!(has_form(77, &[0, 128, 0, 0]));
        assert!(!has_form(77, &[1, 128, 0, 0]));
        let good = encode_segment(Iomode::Read, 31, &Segment::default());
        // Iomode, place, right and slot, each with its limits.
        for (at, inside, outside) in [(0, [1, 2], [0, 3]), (4, [0, 31], [32, 255]), (24, [1, 2], [3, 255])] {
            let with = |value| {
                let mut payload = good.clone();
                payload[at] = value;
                has_form(75, &payload)
            };
            assert!(inside.into_iter().all(with), "place {at}");
            assert!(!outside.into_iter().any(with), "place {at}");
        }
        let slot = |number: u32| [&good[..28], &number.to_le_bytes()].concat();
        assert!(has_form(75, &slot(255)) && !has_form(75, &slot(256)));
        for at in [1, 5, 25, 29] {
            let mut payload = good.clone();
            payload[at] = 1;
            assert!(!has_form(75, &payload), "a second byte at {at}");
        }
    }

    #[test]
    fn what_is_written_is_read_again() {
        let numbers = RangeNumbers { offset: 1 << 40, length: u64::MAX, iomode: 1 << 31 };
        let segment = Segment { first: 1 << 63, last: 5, right: Right::Recalled(9) };
        let cases = [
            TableCase::Event(Event::Grant(vec![1, 2, 3])),
            TableCase::Event(Event::Return(numbers)),
            TableCase::Event(Event::Recall(numbers)),
            TableCase::Event(Event::Revoke),
            TableCase::Locate(IoRequest::read(1 << 44, 3)),
            TableCase::Locate(IoRequest::write(u64::MAX, 0)),
            TableCase::ShowTable,
            TableCase::ShowStore,
            TableCase::SetByte { offset: 32_767, value: 200 },
            TableCase::SetSegment { iomode: Iomode::ReadWrite, index: 31, segment },
            TableCase::Reset,
            TableCase::SetBorrowed(32_768),
        ];
        for case in cases {
            let (kind, payload) = encode_table_case(&case);
            assert_eq!(parse_table_case(kind, &payload), Some(case));
        }
    }
}
