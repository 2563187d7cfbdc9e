//! The tuned Rust against the independent implementation, on aimed and random input, good and damaged, before anything is measured.

use crate::expected;
use crate::forms::{plain_location, tuned_event, tuned_form};
use crate::tuned;
use crate::tuned::layout4::Layout4;
use crate::tuned::locate::{locate_read, locate_write, Location};
use crate::tuned::returns::{read_reports, read_statistics};
use basilothyn::raw::{ErrorRecord, Outgoing, ReportsResult, StatisticsResult};
use case_files::generate::mixed::random_file;
use case_files::generate::{
    file_ends, granted_bytes, layout4s, layouts, locates, overlaps, reports_read, segment_limits, slot_limits,
    statistics_read, statistics_written, unsound,
};
use independent::cases::{Case, CaseFile, CaseFileWriter, ReturnWrite};
use independent::io_request::{Direction, IoRequest};
use independent::layout::read_layout_body;
use independent::layout4::read_layout4;
use independent::range::byte_range;
use independent::refusal::Refusal;
use independent::report::{read_layout_return, write_layout_return};
use independent::state::State;
use independent::store::STORE_LENGTH;
use independent::table_cases::TableCase;
use std::collections::BTreeMap;
use std::fmt::Debug;

/// Random files, and cases in each: many short lists of events, and some that fill tables.
const FILES: [(u64, usize); 2] = [(3_000, 20), (40, 1_500)];

#[derive(Default)]
struct Both {
    state: State,
    table: tuned::table::Table,
    store: Vec<u8>,
    borrowed: usize,
    /// How often each answer to an event or lookup came, the bodies that were read, and the layout returns written.
    answers: BTreeMap<u32, usize>,
    bodies: usize,
    written: usize,
}

/// What was compared, or the first difference.
pub fn compare() -> Result<String, String> {
    let mut both = Both::default();
    both.file(&aimed_file()).map_err(|what| format!("aimed cases, {what}"))?;
    for (seed, cases) in FILES.iter().flat_map(|&(files, cases)| (0..files).map(move |seed| (seed, cases))) {
        both.file(&random_file(seed, cases)).map_err(|what| format!("seed {seed} with {cases} cases, {what}"))?;
    }
    let calls: usize = both.answers.values().sum();
    let answers: Vec<String> = both.answers.iter().map(|(answer, times)| format!("{answer}: {times}")).collect();
    let lists: u64 = FILES.iter().map(|(files, _)| files).sum();
    Ok(format!(
        "Tuned Rust against plain Rust: the aimed cases of tests/ and {lists} random lists, in all {calls} events and lookups, {} bodies read and {} layout returns written; the
same answers, tables, stores and outputs. Answers to events and lookups: {}.",
        both.bodies,
        both.written,
        answers.join(", ")
    ))
}

/// Limits, overlaps, the ends of files, and corrupted tables and stores, which random cases seldom meet.
fn aimed_file() -> Vec<u8> {
    let mut cases = CaseFileWriter::default();
    layouts::add(&mut cases);
    layout4s::add(&mut cases);
    reports_read::add(&mut cases);
    statistics_read::add(&mut cases);
    statistics_written::add(&mut cases);
    file_ends::add(&mut cases);
    overlaps::add(&mut cases);
    segment_limits::add(&mut cases);
    slot_limits::add(&mut cases);
    granted_bytes::add(&mut cases);
    locates::add(&mut cases);
    unsound::add(&mut cases);
    cases.into_bytes()
}

impl Both {
    fn start(&mut self) {
        (self.state, self.table) = (State::default(), tuned::table::Table::default());
        (self.store, self.borrowed) = (vec![0; STORE_LENGTH], STORE_LENGTH);
    }

    /// A file starts with an empty table.
    fn file(&mut self, file: &[u8]) -> Result<(), String> {
        self.start();
        CaseFile::new(file)
            .enumerate()
            .try_for_each(|(number, case)| self.case(&case).map_err(|what| format!("case {number}: {what}")))
    }

    fn case(&mut self, case: &Case) -> Result<(), String> {
        match case {
            Case::Table(case) => self.table_case(case),
            Case::LayoutBody(body) => {
                self.bodies += 1;
                same("the layout body", plain_layout(body), tuned::layout::read_layout(body))
            }
            Case::Layout4(bytes) => {
                self.bodies += 1;
                same("the layout4", plain_layout4(bytes), tuned::layout4::read_layout4(bytes))
            }
            Case::ReportRead(body) => {
                self.bodies += 1;
                let plain = read_layout_return(body);
                same("the reports", expected::reports(plain.clone()), reports_result(body))?;
                same("the statistics", expected::statistics(plain), statistics_result(body))
            }
            Case::ReturnWrite(case) => {
                self.written += 1;
                compare_writing(case)
            }
            _ => Ok(()),
        }
    }

    fn table_case(&mut self, case: &TableCase) -> Result<(), String> {
        match case {
            TableCase::Event(event) => {
                let expected = self.state.apply(event).err().map_or(0, number);
                let answered = tuned_event(&mut self.table, &mut self.store[..self.borrowed], event);
                *self.answers.entry(answered).or_default() += 1;
                same("the event's answer", expected, answered)?;
            }
            TableCase::Locate(request) => {
                let answered = self.locate(request);
                *self.answers.entry(answered.err().unwrap_or(0)).or_default() += 1;
                let expected = plain_location(&self.state.table, &self.state.store[..self.borrowed], request);
                same("the lookup's answer", expected, answered)?;
            }
            TableCase::SetByte { offset, value } => {
                self.state.set_byte(*offset, *value);
                self.store[*offset] = *value;
            }
            TableCase::SetSegment { iomode, index, segment } => {
                self.state.set_segment(*iomode, *index, *segment);
                self.table = tuned_form(&self.state.table);
            }
            TableCase::SetBorrowed(length) => {
                self.state.set_borrowed(*length);
                self.borrowed = *length;
            }
            TableCase::Reset => self.start(),
            TableCase::ShowTable | TableCase::ShowStore => {}
        }
        same("the table", tuned_form(&self.state.table), self.table)?;
        same("the store", true, self.state.store == self.store)
    }

    fn locate(&self, request: &IoRequest) -> Result<Location, u32> {
        let store = &self.store[..self.borrowed];
        match request.direction {
            Direction::Read => locate_read(&self.table, store, request.offset, request.length),
            Direction::Write => locate_write(&self.table, store, request.offset, request.length),
        }
    }
}

fn number(refusal: Refusal) -> u32 {
    refusal.number().into()
}

fn plain_layout(body: &[u8]) -> Result<tuned::layout::Layout, u32> {
    let read = read_layout_body(body).map_err(number)?;
    let summary = tuned::layout::Summary {
        unit: read.unit,
        mirrors: read.mirrors,
        servers: read.servers,
        flags: read.flags,
        hint: read.hint,
    };
    Ok(tuned::layout::Layout { summary, starts: read.starts })
}

fn plain_layout4(bytes: &[u8]) -> Result<Layout4<'_>, u32> {
    let read = read_layout4(bytes).map_err(number)?;
    let range = byte_range(read.offset, read.length).map_err(number)?;
    Ok(Layout4 { first: range.first, last: range.last, iomode: read.iomode, body: read.body(bytes) })
}

fn reports_result(body: &[u8]) -> ReportsResult {
    read_reports(body).unwrap_or_else(|refusal| ReportsResult { refusal, ..ReportsResult::default() })
}

fn statistics_result(body: &[u8]) -> StatisticsResult {
    read_statistics(body).unwrap_or_else(|refusal| StatisticsResult { refusal, ..StatisticsResult::default() })
}

/// The length or refusal, and every byte of the output.
fn compare_writing(case: &ReturnWrite) -> Result<(), String> {
    let (reports, statistics) = (&case.reports, &case.statistics);
    let mut plain = vec![165; reports.output_length];
    let (heads, errors) = (&reports.heads, &reports.errors);
    let length =
        write_layout_return(reports.report_count, heads, errors, case.statistics_count, statistics, &mut plain);
    let outgoing = Outgoing {
        count: reports.report_count,
        heads: heads.each_ref().map(expected::head),
        statistic_count: case.statistics_count,
        statistics: statistics.each_ref().map(expected::statistic),
    };
    let errors: Vec<ErrorRecord> = errors.iter().map(expected::error_record).collect();
    let mut out = vec![165; reports.output_length];
    let answered = tuned::by_value::write_return(outgoing, &errors, &mut out);
    same("the written length", expected::written(length), answered)?;
    same("the written bytes", plain, out)
}

fn same<T: PartialEq + Debug>(what: &str, expected: T, answered: T) -> Result<(), String> {
    if expected == answered {
        return Ok(());
    }
    Err(format!("{what} differs\nplain {expected:?}\ntuned {answered:?}"))
}
