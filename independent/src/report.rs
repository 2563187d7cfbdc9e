//! The `ff_layoutreturn4` body of RFC 8435 section 9.3, read and written: I/O
//! error reports, then I/O statistics.

use crate::range::check_range;
use crate::refusal::Refusal;
use crate::statistics::{Statistic, STATISTICS_LIMIT};
use crate::xdr::{put, Cursor};

/// "Report count (0 to 8)"
pub const REPORT_LIMIT: u32 = 8;
/// "error count (1 to 16)"
pub const ERROR_LIMIT: u32 = 16;
/// Report count and statistics count, which are in every body.
const FRAME_SIZE: usize = 4 + 4;
/// Offset, length, stateid and error count.
const HEAD_SIZE: usize = 8 + 8 + 16 + 4;
/// Device id, status and operation.
const ERROR_SIZE: usize = 16 + 4 + 4;

/// `device_error4` of RFC 7862.
#[derive(Clone, Copy, Debug, Default, PartialEq, Eq)]
pub struct DeviceError {
    pub device_id: [u8; 16],
    pub status: u32,
    pub operation: u32,
}

/// A report without its errors, which are in a list of their own.
#[derive(Clone, Copy, Debug, Default, PartialEq, Eq)]
pub struct ReportHead {
    pub offset: u64,
    pub length: u64,
    pub stateid: [u8; 16],
    pub error_count: u32,
}

/// What an accepted body holds: the reports, the errors of all of them in
/// order, and the statistics.
#[derive(Clone, Debug, Default, PartialEq, Eq)]
pub struct LayoutReturn {
    pub heads: Vec<ReportHead>,
    pub errors: Vec<DeviceError>,
    pub statistics: Vec<Statistic>,
}

/// Reads a body: "Report count (0 to 8), reports", then up to 8 statistics
/// (C-13). "Nothing may follow the body."
pub fn read_layout_return(body: &[u8]) -> Result<LayoutReturn, Refusal> {
    let mut cursor = Cursor::new(body);
    let mut layout_return = LayoutReturn::default();
    for _ in 0..cursor.count(0..=REPORT_LIMIT)? {
        let head = read_head(&mut cursor)?;
        layout_return.heads.push(head);
        for _ in 0..head.error_count {
            layout_return.errors.push(read_error(&mut cursor)?);
        }
    }
    for _ in 0..cursor.count(0..=STATISTICS_LIMIT)? {
        layout_return.statistics.push(Statistic::read(&mut cursor)?);
    }
    cursor.finish()?;
    Ok(layout_return)
}

/// "A report: offset, length (the pair obeys the range rule, judged here),
/// stateid, error count (1 to 16)".
fn read_head(cursor: &mut Cursor) -> Result<ReportHead, Refusal> {
    let offset = cursor.uhyper()?;
    let length = cursor.uhyper()?;
    check_range(offset, length)?;
    let stateid = cursor.fixed()?;
    let error_count = cursor.count(1..=ERROR_LIMIT)?;
    Ok(ReportHead { offset, length, stateid, error_count })
}

/// "errors of device id, status, operation; an error is judged when all three
/// are read."
#[inline]
pub fn read_error(cursor: &mut Cursor) -> Result<DeviceError, Refusal> {
    let error = DeviceError { device_id: cursor.fixed()?, status: cursor.uint()?, operation: cursor.uint()? };
    check_error(&error)?;
    Ok(error)
}

/// 27 "an error's operation is not 5, 25 or 38 (COMMIT, READ, WRITE), or its
/// status is 0".
fn check_error(error: &DeviceError) -> Result<(), Refusal> {
    let known_operation = matches!(error.operation, 5 | 25 | 38);
    if known_operation && error.status != 0 {
        Ok(())
    } else {
        Err(Refusal::BadDeviceError)
    }
}

/// Writes a body without statistics to the front of `output`.
pub fn write_reports(
    report_count: u32,
    heads: &[ReportHead; REPORT_LIMIT as usize],
    errors: &[DeviceError],
    output: &mut [u8],
) -> Result<usize, Refusal> {
    write_layout_return(report_count, heads, errors, 0, &[], output)
}

/// Writes the first `report_count` of the reports and the first
/// `statistics_count` of the statistics to the front of `output` and answers
/// the body's length: "In writing, too many reports come first (8), then a list
/// of another length (8)", "too many statistics (8) come right after the list's
/// length, and the records after the reports, before 26" (C-13). "Bytes of the
/// output beyond the body stay."
///
/// `statistics` has as many records as the count says, or 8 where the count is
/// higher.
pub fn write_layout_return(
    report_count: u32,
    heads: &[ReportHead; REPORT_LIMIT as usize],
    errors: &[DeviceError],
    statistics_count: u32,
    statistics: &[Statistic],
    output: &mut [u8],
) -> Result<usize, Refusal> {
    if report_count > REPORT_LIMIT {
        return Err(Refusal::OutsideLimit);
    }
    let heads = &heads[..report_count as usize];
    check_list_length(heads, errors)?;
    if statistics_count > STATISTICS_LIMIT {
        return Err(Refusal::OutsideLimit);
    }
    let statistics = &statistics[..statistics_count as usize];
    check_reports(heads, errors)?;
    statistics.iter().try_for_each(Statistic::check)?;
    let statistics_size: usize = statistics.iter().map(Statistic::size).sum();
    let size = FRAME_SIZE + HEAD_SIZE * heads.len() + ERROR_SIZE * errors.len() + statistics_size;
    let mut rest = output.get_mut(..size).ok_or(Refusal::OutputTooShort)?;
    put_reports(&mut rest, heads, errors);
    put(&mut rest, &statistics_count.to_be_bytes());
    statistics.iter().for_each(|statistic| statistic.put(&mut rest));
    Ok(size)
}

/// "the counts together must be the list's length". Summed in 64 bits: eight
/// counts of 32 bits cannot wrap there.
fn check_list_length(heads: &[ReportHead], errors: &[DeviceError]) -> Result<(), Refusal> {
    let sum: u64 = heads.iter().map(|head| u64::from(head.error_count)).sum();
    if sum == errors.len() as u64 {
        Ok(())
    } else {
        Err(Refusal::OutsideLimit)
    }
}

/// Each report is judged in the order in which its body would be read.
fn check_reports(heads: &[ReportHead], errors: &[DeviceError]) -> Result<(), Refusal> {
    let mut rest = errors;
    for head in heads {
        check_range(head.offset, head.length)?;
        if !(1..=ERROR_LIMIT).contains(&head.error_count) {
            return Err(Refusal::OutsideLimit);
        }
        let (own, later) = rest.split_at(head.error_count as usize);
        own.iter().try_for_each(check_error)?;
        rest = later;
    }
    Ok(())
}

/// Writes the report count and the reports to the front of `rest`.
fn put_reports(rest: &mut &mut [u8], heads: &[ReportHead], errors: &[DeviceError]) {
    let mut unwritten = errors;
    put(rest, &(heads.len() as u32).to_be_bytes());
    for head in heads {
        put(rest, &head.offset.to_be_bytes());
        put(rest, &head.length.to_be_bytes());
        put(rest, &head.stateid);
        put(rest, &head.error_count.to_be_bytes());
        let (own, later) = unwritten.split_at(head.error_count as usize);
        for error in own {
            put(rest, &error.device_id);
            put(rest, &error.status.to_be_bytes());
            put(rest, &error.operation.to_be_bytes());
        }
        unwritten = later;
    }
}

#[cfg(test)]
mod tests {
    mod both_halves;

    use super::*;
    use crate::samples::bodies::{encode_reports, good_error, ReportPlan};
    use crate::samples::wire::{extended, Item, Wire};

    fn refusal(body: &[u8]) -> Option<u8> {
        read_layout_return(body).err().map(Refusal::number)
    }

    fn head(error_count: u32) -> ReportHead {
        ReportHead { offset: 1, length: 2, stateid: [3; 16], error_count }
    }

    fn heads(given: &[ReportHead]) -> [ReportHead; 8] {
        let mut heads = [ReportHead::default(); 8];
        heads[..given.len()].copy_from_slice(given);
        heads
    }

    /// Writes to an output of the given length; also whether it is untouched.
    fn write(given: &[ReportHead], errors: &[DeviceError], length: usize) -> (Option<u8>, bool) {
        let mut output = vec![165; length];
        let outcome = write_reports(given.len() as u32, &heads(given), errors, &mut output);
        let untouched = output.iter().all(|&byte| byte == 165);
        (outcome.err().map(Refusal::number), untouched)
    }

    #[test]
    fn worked_example_of_a_body_with_nothing_in_it() {
        assert_eq!(read_layout_return(&[0; 8]), Ok(LayoutReturn::default()));
        let mut output = [165; 10];
        assert_eq!(write_reports(0, &heads(&[]), &[], &mut output), Ok(8));
        assert_eq!(output, [0, 0, 0, 0, 0, 0, 0, 0, 165, 165]);
    }

    #[test]
    fn one_report_with_one_error_has_68_bytes() {
        let error = DeviceError { device_id: [9; 16], status: 5, operation: 38 };
        let mut expected = vec![0, 0, 0, 1];
        expected.extend([0, 0, 0, 0, 0, 0, 0, 1, 0, 0, 0, 0, 0, 0, 0, 2]);
        expected.extend([3; 16]);
        expected.extend([0, 0, 0, 1]);
        expected.extend([9; 16]);
        expected.extend([0, 0, 0, 5, 0, 0, 0, 38]);
        expected.extend([0; 4]);
        assert_eq!(expected.len(), 68);
        let mut output = [0; 68];
        assert_eq!(write_reports(1, &heads(&[head(1)]), &[error], &mut output), Ok(68));
        assert_eq!(output[..], expected);
        let read = read_layout_return(&expected).unwrap();
        assert_eq!(read, LayoutReturn { heads: vec![head(1)], errors: vec![error], statistics: Vec::new() });
    }

    #[test]
    fn the_largest_body_without_statistics_has_3368_bytes() {
        let errors: Vec<_> = (0..128).map(|place| good_error(1, place)).collect();
        let mut output = vec![165; 3_369];
        let heads = heads(&[head(16); 8]);
        assert_eq!(write_reports(8, &heads, &errors, &mut output), Ok(3_368));
        assert_eq!(output[3_368], 165);
        let expected = LayoutReturn { heads: heads.to_vec(), errors, statistics: Vec::new() };
        assert_eq!(read_layout_return(&output[..3_368]), Ok(expected));
        // The length is no test of its own.
        assert_eq!(refusal(&output), Some(2));
    }

    #[test]
    fn reading_judges_counts_ranges_and_errors() {
        let wire = encode_reports(&[ReportPlan::with_errors(1, 2)], 0);
        assert_eq!(refusal(&wire.bytes), None);
        assert_eq!(refusal(&wire.with_uint(Item::ReportCount, 0, 9)), Some(8));
        assert_eq!(refusal(&wire.with_uhyper(Item::Length, 0, 0)), Some(5));
        assert_eq!(refusal(&wire.with_uint(Item::ErrorCount, 0, 0)), Some(8));
        assert_eq!(refusal(&wire.with_uint(Item::ErrorCount, 0, 17)), Some(8));
        assert_eq!(refusal(&wire.with_uint(Item::Status, 1, 0)), Some(27));
        for operation in [0, 4, 6, 24, 26, 37, 39, 10_044] {
            assert_eq!(refusal(&wire.with_uint(Item::Operation, 0, operation)), Some(27));
        }
        assert_eq!(refusal(&wire.with_uint(Item::StatisticsCount, 0, 9)), Some(8));
        assert_eq!(refusal(&extended(&wire.bytes, &[0])), Some(2));
        for length in 0..wire.bytes.len() {
            assert_eq!(refusal(&wire.bytes[..length]), Some(1), "cut to {length}");
        }
    }

    #[test]
    fn an_error_is_judged_when_all_three_are_read() {
        let wire = encode_reports(&[ReportPlan::with_errors(1, 1)], 0);
        let no_status = wire.with_uint(Item::Status, 0, 0);
        let operation = wire.offsets(Item::Operation)[0];
        assert_eq!(refusal(&no_status[..operation + 3]), Some(1));
        assert_eq!(refusal(&no_status[..operation + 4]), Some(27));
    }

    #[test]
    fn the_range_is_judged_when_its_length_is_read() {
        let wire = encode_reports(&[ReportPlan::with_errors(1, 1)], 0);
        let no_length = wire.with_uhyper(Item::Length, 0, 0);
        assert_eq!(refusal(&no_length[..19]), Some(1));
        assert_eq!(refusal(&no_length[..20]), Some(5));
    }

    #[test]
    fn writing_refuses_in_order_and_leaves_the_output() {
        let good = good_error(1, 0);
        let bad = DeviceError { operation: 4, ..good };
        let no_range = ReportHead { length: 0, ..head(0) };
        assert_eq!(write(&[head(1)], &[good], 67), (Some(26), true));
        assert_eq!(write(&[head(1)], &[bad], 67), (Some(27), true));
        assert_eq!(write(&[head(0)], &[], 100), (Some(8), true));
        assert_eq!(write(&[head(17)], &[good; 17], 100), (Some(8), true));
        assert_eq!(write(&[no_range], &[], 0), (Some(5), true));
        assert_eq!(write(&[no_range], &[good], 0), (Some(8), true));
        // A fault in an earlier report comes first, whatever its number.
        assert_eq!(write(&[head(1), no_range], &[bad], 0), (Some(27), true));
        assert_eq!(write(&[head(1), no_range], &[good], 0), (Some(5), true));
    }

    #[test]
    fn too_many_reports_and_lists_of_another_length() {
        let mut output = [165; 100];
        let no_heads = heads(&[]);
        assert_eq!(write_reports(9, &no_heads, &[], &mut output), Err(Refusal::OutsideLimit));
        // In 32 bits these two counts would wrap to the list's length of 0,
        // and the first report's missing range would be met.
        let wrapping = [ReportHead { length: 0, ..head(1 << 31) }; 2];
        assert_eq!(write(&wrapping, &[], 100), (Some(8), true));
    }
}
