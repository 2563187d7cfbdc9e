//! Every fault of a body with I/O statistics, or of what is to be written as
//! one, found by tables of the papers and not by the reader under test.

use independent::cases::ReturnWrite;
use independent::range::check_range;
use independent::report::ReportHead;
use independent::samples::wire::Opaque;
use independent::statistics::Statistic;

/// The opaque items of a record, and the most bytes that each may have.
pub const OPAQUES: [(Opaque, u32); 3] = [(Opaque::Netid, 8), (Opaque::Address, 64), (Opaque::Filehandle, 128)];

/// An item of the second half; numbers count items of one sort in the order of
/// the wire.
#[derive(Clone, Copy, Debug, PartialEq, Eq, PartialOrd, Ord)]
pub enum Item {
    Count,
    Offset,
    Length,
    Stateid,
    Transfer(u8),
    DeviceId,
    LengthOf(Opaque),
    Content(Opaque),
    Number(u8),
    Seconds(u8),
    Nanoseconds(u8),
    Local,
}

/// What can be wrong with a body or with what is to be written.
#[derive(Clone, Copy, Debug, PartialEq, Eq, PartialOrd, Ord)]
pub enum Fault {
    Cut(Item),
    TooManyReports,
    ListLength,
    TooManyStatistics,
    /// A fault of a report, by its number.
    Report(u8),
    Range,
    TooShort(Opaque),
    TooLong(Opaque),
    Padding(Opaque),
    Seconds(u8),
    Nanoseconds(u8),
    BothParts(u8),
    Local,
    LeftOver,
    OutputShortByOne,
    OutputShorter,
}

impl Fault {
    pub fn number(self) -> u8 {
        match self {
            Fault::Cut(_) => 1,
            Fault::LeftOver => 2,
            Fault::Range => 5,
            Fault::Padding(_) => 6,
            Fault::Local => 7,
            Fault::TooManyReports | Fault::ListLength | Fault::TooManyStatistics => 8,
            Fault::TooShort(_) | Fault::TooLong(_) => 8,
            Fault::Report(number) => number,
            Fault::OutputShortByOne | Fault::OutputShorter => 26,
            Fault::Seconds(_) | Fault::Nanoseconds(_) | Fault::BothParts(_) => 28,
        }
    }
}

/// A fault and the record that it is in; the reports and counts are in none.
pub type Found = (Option<usize>, Fault);

/// Where a body can be cut behind the reports.
pub fn items() -> Vec<Item> {
    let mut items = vec![Item::Count, Item::Offset, Item::Length, Item::Stateid, Item::DeviceId, Item::Local];
    items.extend((0..4).map(Item::Transfer));
    items.extend(OPAQUES.into_iter().flat_map(|(opaque, _)| [Item::LengthOf(opaque), Item::Content(opaque)]));
    items.extend((0..10).map(Item::Number));
    items.extend((0..5).flat_map(|place| [Item::Seconds(place), Item::Nanoseconds(place)]));
    items
}

/// The faults that reading and writing have in common.
pub fn faults_both_ways() -> Vec<Fault> {
    let mut faults = vec![Fault::TooManyStatistics, Fault::Range, Fault::Local];
    faults.extend([5, 8, 27].map(Fault::Report));
    faults.extend(OPAQUES.into_iter().flat_map(|(opaque, _)| [Fault::TooShort(opaque), Fault::TooLong(opaque)]));
    faults.extend((0..5).flat_map(|place| [Fault::Seconds(place), Fault::Nanoseconds(place)]));
    faults
}

fn fault_of_time(place: u8, seconds: u64, nanoseconds: u32) -> Option<Fault> {
    match (seconds >= 1 << 63, nanoseconds >= 1_000_000_000) {
        (false, false) => None,
        (true, false) => Some(Fault::Seconds(place)),
        (false, true) => Some(Fault::Nanoseconds(place)),
        (true, true) => Some(Fault::BothParts(place)),
    }
}

fn fault_of_length(opaque: Opaque, most: u32, length: u32) -> Option<Fault> {
    if length == 0 {
        Some(Fault::TooShort(opaque))
    } else {
        (length > most).then_some(Fault::TooLong(opaque))
    }
}

/// A walk over a body that goes on behind a fault where the items are still
/// told apart.
pub struct Walk<'a> {
    rest: &'a [u8],
    /// The statistics count, where it is allowed.
    pub count: Option<u32>,
    record: Option<usize>,
    pub found: Vec<Found>,
}

impl<'a> Walk<'a> {
    pub fn over(body: &'a [u8]) -> Self {
        let mut walk = Walk { rest: body, count: None, record: None, found: Vec::new() };
        if walk.reports().and_then(|()| walk.statistics()).is_some() && !walk.rest.is_empty() {
            walk.record = None;
            walk.note(Fault::LeftOver);
        }
        walk
    }

    fn note(&mut self, fault: Fault) {
        self.found.push((self.record, fault));
    }

    /// The next bytes, or nothing after noting the fault.
    fn take(&mut self, length: usize, cut: Fault) -> Option<&'a [u8]> {
        let Some((taken, rest)) = self.rest.split_at_checked(length) else {
            self.note(cut);
            return None;
        };
        self.rest = rest;
        Some(taken)
    }

    fn number(&mut self, width: usize, cut: Fault) -> Option<u64> {
        let bytes = self.take(width, cut)?;
        Some(bytes.iter().fold(0, |number, &byte| number << 8 | u64::from(byte)))
    }

    fn range(&mut self, cuts: [Fault; 2], bad: Fault) -> Option<()> {
        let offset = self.number(8, cuts[0])?;
        let length = self.number(8, cuts[1])?;
        if check_range(offset, length).is_err() {
            self.note(bad);
        }
        Some(())
    }

    /// The first half; a count that is not allowed ends the walk.
    fn reports(&mut self) -> Option<()> {
        let cut = Fault::Report(1);
        for _ in 0..self.count_up_to(8, cut, Fault::Report(8))? {
            self.range([cut; 2], Fault::Report(5))?;
            self.take(16, cut)?;
            let errors = self.count_up_to(16, cut, Fault::Report(8))?;
            if errors == 0 {
                self.note(Fault::Report(8));
                return None;
            }
            for _ in 0..errors {
                self.take(16, cut)?;
                let (status, operation) = (self.number(4, cut)?, self.number(4, cut)?);
                if status == 0 || ![5, 25, 38].contains(&operation) {
                    self.note(Fault::Report(27));
                }
            }
        }
        Some(())
    }

    fn count_up_to(&mut self, most: u64, cut: Fault, above: Fault) -> Option<u64> {
        let count = self.number(4, cut)?;
        if count > most {
            self.note(above);
            return None;
        }
        Some(count)
    }

    fn statistics(&mut self) -> Option<()> {
        let count = self.count_up_to(8, Fault::Cut(Item::Count), Fault::TooManyStatistics)?;
        self.count = Some(count as u32);
        for record in 0..count as usize {
            self.record = Some(record);
            self.front()?;
            for (opaque, most) in OPAQUES {
                self.opaque(opaque, most)?;
            }
            self.latencies()?;
            self.time(4)?;
            if self.number(4, Fault::Cut(Item::Local))? > 1 {
                self.note(Fault::Local);
            }
        }
        Some(())
    }

    fn front(&mut self) -> Option<()> {
        self.range([Fault::Cut(Item::Offset), Fault::Cut(Item::Length)], Fault::Range)?;
        self.take(16, Fault::Cut(Item::Stateid))?;
        for place in 0..4 {
            self.take(8, Fault::Cut(Item::Transfer(place)))?;
        }
        self.take(16, Fault::Cut(Item::DeviceId)).map(|_| ())
    }

    /// Behind a length that is not allowed its bytes are taken all the same.
    fn opaque(&mut self, opaque: Opaque, most: u32) -> Option<()> {
        let length = self.number(4, Fault::Cut(Item::LengthOf(opaque)))? as u32;
        if let Some(fault) = fault_of_length(opaque, most, length) {
            self.note(fault);
        }
        let padded = (u64::from(length).div_ceil(4) * 4) as usize;
        let content = self.take(padded, Fault::Cut(Item::Content(opaque)))?;
        if content[length as usize..].iter().any(|&byte| byte != 0) {
            self.note(Fault::Padding(opaque));
        }
        Some(())
    }

    fn latencies(&mut self) -> Option<()> {
        for half in 0..2 {
            for place in 0..5 {
                self.take(8, Fault::Cut(Item::Number(5 * half + place)))?;
            }
            self.time(2 * half)?;
            self.time(2 * half + 1)?;
        }
        Some(())
    }

    fn time(&mut self, place: u8) -> Option<()> {
        let seconds = self.number(8, Fault::Cut(Item::Seconds(place)))?;
        let nanoseconds = self.number(4, Fault::Cut(Item::Nanoseconds(place)))?;
        if let Some(fault) = fault_of_time(place, seconds, nanoseconds as u32) {
            self.note(fault);
        }
        Some(())
    }
}

/// Every fault of what is to be written, in the order in which it is judged.
pub fn faults_of_writing(case: &ReturnWrite) -> Vec<Found> {
    let mut found = Vec::new();
    let reports = &case.reports;
    if reports.report_count > 8 {
        return vec![(None, Fault::TooManyReports)];
    }
    let heads = &reports.heads[..reports.report_count as usize];
    let sum: u128 = heads.iter().map(|head| u128::from(head.error_count)).sum();
    if sum != reports.errors.len() as u128 {
        return vec![(None, Fault::ListLength)];
    }
    if case.statistics_count > 8 {
        found.push((None, Fault::TooManyStatistics));
    }
    found.extend(faults_of_reports(heads, case).into_iter().map(|number| (None, Fault::Report(number))));
    if case.statistics_count > 8 {
        return found;
    }
    for (record, statistic) in case.statistics[..case.statistics_count as usize].iter().enumerate() {
        found.extend(faults_of_record(statistic).into_iter().map(|fault| (Some(record), fault)));
    }
    found.extend(fault_of_output(heads, case).map(|fault| (None, fault)));
    found
}

fn faults_of_reports(heads: &[ReportHead], case: &ReturnWrite) -> Vec<u8> {
    let mut numbers = Vec::new();
    let mut errors = case.reports.errors.iter();
    for head in heads {
        numbers.extend(check_range(head.offset, head.length).is_err().then_some(5));
        numbers.extend((!(1..=16).contains(&head.error_count)).then_some(8));
        let own = errors.by_ref().take(head.error_count as usize);
        let bad = own.filter(|error| error.status == 0 || ![5, 25, 38].contains(&error.operation)).count();
        numbers.extend(vec![27; bad]);
    }
    numbers
}

fn faults_of_record(statistic: &Statistic) -> Vec<Fault> {
    let lengths = [statistic.netid.length, statistic.address.length, statistic.filehandle.length];
    let bad_lengths =
        OPAQUES.into_iter().zip(lengths).filter_map(|((opaque, most), length)| fault_of_length(opaque, most, length));
    let bad_times = (0..)
        .zip(statistic.times())
        .filter_map(|(place, time)| fault_of_time(place, time.seconds as u64, time.nanoseconds));
    let bad_range = check_range(statistic.offset, statistic.length).is_err().then_some(Fault::Range);
    let bad_local = (statistic.local > 1).then_some(Fault::Local);
    bad_range.into_iter().chain(bad_lengths).chain(bad_times).chain(bad_local).collect()
}

/// The body's size by the papers' sums: 8 for the counts, 36 a report, 24 an
/// error, and 236 a record with its three contents in multiples of 4.
fn fault_of_output(heads: &[ReportHead], case: &ReturnWrite) -> Option<Fault> {
    let padded = |length: u32| u64::from(length).div_ceil(4) * 4;
    let record = |s: &Statistic| 236 + padded(s.netid.length) + padded(s.address.length) + padded(s.filehandle.length);
    let records: u64 = case.statistics[..case.statistics_count as usize].iter().map(record).sum();
    let size = 8 + 36 * heads.len() as u64 + 24 * case.reports.errors.len() as u64 + records;
    match size.checked_sub(case.reports.output_length as u64) {
        None | Some(0) => None,
        Some(1) => Some(Fault::OutputShortByOne),
        Some(_) => Some(Fault::OutputShorter),
    }
}
