//! The exported functions against the independent implementation, on random and damaged input.
//!
//! `differential SECONDS [SEED]` takes random case files, one seed after the other, and puts each case to both. It ends after so many seconds with
//! how many cases it ran and how often each refusal number came, or at the first disagreement with that case as a record of a case file.

mod expected;
mod exported;
mod tally;
mod wire;

use case_files::generate::mixed::random_file;
use exported::Exported;
use independent::cases::{Case, CaseFile, Ending};
use independent::state::State;
use independent::table_cases::TableCase;
use std::process::ExitCode;
use std::time::{Duration, Instant};
use tally::Tally;

const CASES_A_FILE: usize = 2_000;

fn main() -> ExitCode {
    let words: Vec<u64> = std::env::args().skip(1).filter_map(|word| word.parse().ok()).collect();
    let (seconds, first) = match words[..] {
        [seconds] => (seconds, 1),
        [seconds, seed] => (seconds, seed),
        _ => {
            eprintln!("usage: differential SECONDS [SEED]");
            return ExitCode::from(2);
        }
    };
    let end = Instant::now() + Duration::from_secs(seconds);
    let mut tally = Tally::default();
    for seed in first.. {
        if let Err(difference) = compare_file(seed, &mut tally) {
            println!("seed {seed}: {difference}");
            return ExitCode::FAILURE;
        }
        if Instant::now() >= end {
            break;
        }
    }
    println!("{tally}");
    ExitCode::SUCCESS
}

/// Puts each case of one random file to both sides.
fn compare_file(seed: u64, tally: &mut Tally) -> Result<(), String> {
    let file = random_file(seed, CASES_A_FILE);
    let mut state = State::default();
    let mut exported = Exported::default();
    let mut cases = CaseFile::new(&file);
    let mut start = 0;
    while let Some(case) = cases.next() {
        let compared = match &case {
            Case::Table(case) => compare(&mut state, &mut exported, case, tally),
            case => wire::compare(case, tally),
        };
        let (Ending::End(end) | Ending::Stop(end)) = cases.ending();
        compared.map_err(|what| format!("{what}\n{}", hexadecimal(&file[start..end])))?;
        start = end;
    }
    Ok(())
}

/// One case of the table: the answers, and then all of table and store.
fn compare(state: &mut State, exported: &mut Exported, case: &TableCase, tally: &mut Tally) -> Result<(), String> {
    match case {
        TableCase::Event(event) => {
            let expected = state.apply(event).map_or_else(|refusal| u32::from(refusal.number()), |()| 0);
            let answered = exported.apply(event);
            tally.count(answered);
            same("the event's answer", expected, answered)?;
        }
        TableCase::Locate(request) => {
            let expected = state.locate(request).map_err(|refusal| u32::from(refusal.number()));
            let answered = exported.locate(request);
            tally.count(answered.as_ref().err().copied().unwrap_or(0));
            same("the request's answer", expected, answered)?;
        }
        TableCase::SetByte { offset, value } => {
            state.set_byte(*offset, *value);
            exported.store[*offset] = *value;
        }
        TableCase::SetSegment { iomode, index, segment } => {
            state.set_segment(*iomode, *index, *segment);
            exported.set_segment(*iomode, *index, segment);
        }
        TableCase::SetBorrowed(length) => {
            state.set_borrowed(*length);
            exported.borrowed = *length;
        }
        TableCase::Reset => {
            *state = State::default();
            *exported = Exported::default();
        }
        TableCase::ShowTable | TableCase::ShowStore => {}
    }
    same("the table", exported::record_of(&state.table), exported.table)?;
    same("the store", true, state.store == exported.store)
}

pub fn same<T: PartialEq + std::fmt::Debug>(what: &str, expected: T, answered: T) -> Result<(), String> {
    if expected == answered {
        return Ok(());
    }
    Err(format!("{what} differs\nexpected {expected:?}\nanswered {answered:?}"))
}

/// A record of the case file.
fn hexadecimal(bytes: &[u8]) -> String {
    bytes.iter().map(|byte| format!("{byte:02x}")).collect()
}
