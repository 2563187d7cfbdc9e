//! Last records that stop the run of a random file.

use super::mixed::add_case;
use super::random_statistics::add_statistics_case;
use independent::cases::{encode_return_write, kind, CaseFileWriter, ReturnWrite};
use independent::event::{Event, RangeNumbers};
use independent::io_request::IoRequest;
use independent::iomode::{Iomode, IOMODE_ANY};
use independent::report::DeviceError;
use independent::samples::random::Random;
use independent::segments::Segment;
use independent::table_cases::{encode_table_case, kind as table_kind, TableCase};

/// A record whose payload, or whose own first bytes, the file's end cuts.
pub fn add_cut_record(cases: &mut CaseFileWriter, random: &mut Random) {
    let mut record = CaseFileWriter::default();
    if random.once_in(2) {
        add_statistics_case(&mut record, random);
    } else {
        add_case(&mut record, random);
    }
    let cut = random.between(1, record.bytes().len() - 1);
    cases.raw(&record.bytes()[..cut]);
}

pub fn add_unknown_kind(cases: &mut CaseFileWriter, random: &mut Random) {
    let unknown = [0, 2, 3, 6, 7, 8, 10, 63, 79, 80, 255, 256 + 64, 257, u16::MAX];
    let length = random.below(20);
    cases.record(random.pick(&unknown), &random.bytes(length));
    add_case(cases, random);
}

/// A payload that is too long, or not of the form that its kind has.
pub fn add_record_without_form(cases: &mut CaseFileWriter, random: &mut Random) {
    match random.below(12) {
        0 => cases.record(kind::LAYOUT_BODY, &[0; 16_001]),
        1 => cases.record(kind::BIND, &vec![0; random.below(32)]),
        // A layout length above the bytes that are there.
        2 => cases.record(kind::BIND, &[[0; 28].as_slice(), &[5, 0, 0, 0, 1, 2, 3, 4]].concat()),
        // An output above 4,096, a list above 128, and a byte too many.
        3 => cases.record(kind::REPORT_WRITE, &[1, 16, 0, 0, 0, 0, 0, 0, 0, 0, 0, 0]),
        4 => {
            let head = [8, 0, 0, 0, 0, 0, 0, 0, 129, 0, 0, 0];
            cases.record(kind::REPORT_WRITE, &[&head[..], &[1; 129 * 24]].concat());
        }
        5 => cases.record(kind::REPORT_WRITE, &[8, 0, 0, 0, 0, 0, 0, 0, 0, 0, 0, 0, 7]),
        6..=9 => cases.record(kind::RETURN_WRITE, &return_write_without_form(random)),
        10 => add_table_number_beyond_its_limit(cases, random),
        _ => add_table_payload_of_another_length(cases, random),
    }
    add_case(cases, random);
}

/// A return-write payload that is too short or too long, or has an output above
/// 8,192 or a list above 128.
fn return_write_without_form(random: &mut Random) -> Vec<u8> {
    let mut case = ReturnWrite { statistics_count: random.pick(&[0, 1, 8, 9, u32::MAX]), ..Default::default() };
    match random.below(4) {
        0 => case.reports.output_length = 8_193,
        1 => case.reports.errors = vec![DeviceError::default(); 129],
        2 => return [&encode_return_write(&case)[..], &[0]].concat(),
        _ => {
            let whole = encode_return_write(&case);
            return whole[..random.below(whole.len())].to_vec();
        }
    }
    encode_return_write(&case)
}

/// A byte after the store, more of it than there is, and an iomode, place,
/// right or slot that no segment can be set to.
fn add_table_number_beyond_its_limit(cases: &mut CaseFileWriter, random: &mut Random) {
    match random.below(3) {
        0 => cases.record(table_kind::SET_BYTE, &[0, 128, 0, 0, 1]),
        1 => cases.record(table_kind::SET_BORROWED, &[1, 128, 0, 0]),
        _ => {
            let mut payload = [0; 32];
            payload[0] = 1;
            payload[24] = 1;
            let (at, value) = random.pick(&[(0, 0), (0, 3), (4, 32), (24, 3), (29, 1)]);
            payload[at] = value;
            cases.record(table_kind::SET_SEGMENT, &payload);
        }
    }
}

/// One byte more or less than a case of the table has.
fn add_table_payload_of_another_length(cases: &mut CaseFileWriter, random: &mut Random) {
    let numbers = RangeNumbers { offset: 0, length: u64::MAX, iomode: IOMODE_ANY };
    let segment = TableCase::SetSegment { iomode: Iomode::Read, index: 0, segment: Segment::default() };
    let all = [
        TableCase::Event(Event::Return(numbers)),
        TableCase::Event(Event::Recall(numbers)),
        TableCase::Event(Event::Revoke),
        TableCase::Locate(IoRequest::read(0, 1)),
        TableCase::Locate(IoRequest::write(0, 1)),
        TableCase::ShowTable,
        TableCase::ShowStore,
        TableCase::SetByte { offset: 0, value: 0 },
        segment,
        TableCase::Reset,
        TableCase::SetBorrowed(0),
    ];
    let (kind, mut payload) = encode_table_case(&all[random.below(all.len())]);
    if payload.is_empty() || random.once_in(2) {
        payload.push(0);
    } else {
        payload.pop();
    }
    cases.record(kind, &payload);
}

#[cfg(test)]
mod tests {
    use super::*;
    use independent::cases::{CaseFile, Ending};

    /// Where the run of a file of one bad record, made with this seed, ends.
    fn ending(seed: u64, add: fn(&mut CaseFileWriter, &mut Random)) -> Ending {
        let mut cases = CaseFileWriter::default();
        add(&mut cases, &mut Random::new(seed));
        let mut file = CaseFile::new(cases.bytes());
        while file.next().is_some() {}
        file.ending()
    }

    #[test]
    fn every_bad_record_stops_the_run_at_its_first_byte() {
        for seed in 0..500 {
            for add in [add_cut_record, add_unknown_kind, add_record_without_form] {
                assert_eq!(ending(seed, add), Ending::Stop(0), "seed {seed}");
            }
        }
    }

    /// Too short, too long, an output of 8,193 bytes, a list of 129 errors.
    #[test]
    fn return_writes_lose_their_form_in_every_way() {
        let mut counts = [0; 4];
        for seed in 0..200 {
            let payload = return_write_without_form(&mut Random::new(seed));
            let is_output = payload.starts_with(&8_193u32.to_le_bytes());
            let is_list = payload.get(8..12) == Some(&[129, 0, 0, 0]);
            let is_long = payload.len() % 436 == 17;
            let which = [is_output, is_list, is_long].iter().position(|&it| it).unwrap_or(3);
            counts[which] += 1;
        }
        assert!(counts.iter().all(|&times| times >= 10), "{counts:?}");
    }
}
