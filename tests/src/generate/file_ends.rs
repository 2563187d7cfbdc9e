//! Events at both ends of a file, whole-file events, and numbers that are
//! refused.

use super::layout4s::EDGES;
use super::{show, GRANT_IOMODES};
use independent::cases::CaseFileWriter;
use independent::event::{Event, RangeNumbers};
use independent::range::LAST_BYTE;
use independent::samples::events::{grant, layout_return, recall, small_body};
use independent::table_cases::TableCase;

pub fn add(cases: &mut CaseFileWriter) {
    add_empty_table(cases);
    add_worked_examples(cases);
    add_whole_files(cases);
    add_last_bytes(cases);
    add_numbers(cases);
}

fn reset(cases: &mut CaseFileWriter) {
    cases.table(&TableCase::Reset);
}

/// "A recall on an empty table is 25; a return there is accepted."
fn add_empty_table(cases: &mut CaseFileWriter) {
    reset(cases);
    show(cases);
    for iomode in [1, 2, 3] {
        for (first, last) in [(0, 0), (0, LAST_BYTE), (LAST_BYTE, LAST_BYTE), (5, 99)] {
            cases.event(recall(iomode, first, last));
            cases.event(layout_return(iomode, first, last));
        }
    }
    cases.event(Event::Revoke);
    show(cases);
}

fn add_worked_examples(cases: &mut CaseFileWriter) {
    for iomode in GRANT_IOMODES {
        reset(cases);
        let events = [
            grant(iomode, 0, 99, &small_body(1)),
            layout_return(iomode, 40, 59),
            grant(iomode, 40, 59, &small_body(1)),
            layout_return(iomode, 40, 59),
            grant(iomode, 40, 59, &small_body(2)),
            layout_return(3, 40, 59),
            grant(iomode, 40, 59, &small_body(1)),
            recall(iomode, 10, 19),
            // The other iomode holds nothing.
            recall(3 - iomode, 10, 19),
            Event::Revoke,
        ];
        for event in events {
            cases.event(event);
            show(cases);
        }
    }
}

/// Every two of the whole-file events, after a grant in each iomode.
fn add_whole_files(cases: &mut CaseFileWriter) {
    let whole = |event: fn(u32, u64, u64) -> Event, iomode| event(iomode, 0, LAST_BYTE);
    let mut events = vec![Event::Revoke];
    for iomode in [1, 2, 3] {
        events.extend([whole(layout_return, iomode), whole(recall, iomode)]);
    }
    for one in &events {
        for other in &events {
            reset(cases);
            cases.event(grant(1, 0, LAST_BYTE, &small_body(3)));
            cases.event(grant(2, 7, LAST_BYTE, &small_body(4)));
            cases.event(one.clone());
            cases.event(other.clone());
            cases.table(&TableCase::ShowTable);
        }
    }
    show(cases);
}

/// Ranges around the last byte, which only the longest length reaches.
fn add_last_bytes(cases: &mut CaseFileWriter) {
    let ends = [LAST_BYTE - 2, LAST_BYTE - 1, LAST_BYTE];
    let events: [fn(u32, u64, u64) -> Event; 2] = [layout_return, recall];
    for first in ends {
        for last in ends.into_iter().filter(|&last| first <= last) {
            reset(cases);
            cases.event(grant(2, first, last, &small_body(5)));
            cases.event(grant(1, LAST_BYTE - 9, LAST_BYTE, &small_body(5)));
            for event in events {
                cases.event(event(3, first, last));
                cases.table(&TableCase::ShowTable);
            }
            // Byte 0 does not touch the last byte.
            cases.event(grant(1, 0, 0, &small_body(5)));
            cases.table(&TableCase::ShowTable);
            cases.event(grant(1, 0, LAST_BYTE, &small_body(5)));
            cases.table(&TableCase::ShowTable);
        }
    }
}

/// Offsets and lengths of every shape with every iomode: "5 before 3".
fn add_numbers(cases: &mut CaseFileWriter) {
    reset(cases);
    cases.event(grant(1, 0, LAST_BYTE, &small_body(6)));
    for (place, &offset) in EDGES.iter().enumerate() {
        for (behind, &length) in EDGES.iter().enumerate() {
            let iomode = [1, 3, 2, 0, 4, 257, u32::MAX][(place * 5 + behind) % 7];
            let numbers = RangeNumbers { offset, length, iomode };
            cases.event(Event::Recall(numbers));
            cases.event(Event::Return(numbers));
            cases.event(Event::Return(RangeNumbers { iomode: 4 - iomode % 4, ..numbers }));
        }
        cases.table(&TableCase::ShowTable);
        cases.event(grant(1, offset, offset, &small_body(6)));
    }
    show(cases);
}
