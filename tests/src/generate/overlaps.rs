//! Every way in which an event's range can lie to the segments that are there.

use super::show;
use independent::cases::CaseFileWriter;
use independent::event::Event;
use independent::iomode::IOMODE_ANY;
use independent::samples::events::{grant, layout_return, recall, small_body};
use independent::table_cases::TableCase;

/// Bytes around the ends of the segment 100..109.
const AROUND: [u64; 8] = [98, 99, 100, 101, 108, 109, 110, 111];

pub fn add(cases: &mut CaseFileWriter) {
    for start in starting_tables() {
        add_each_range(cases, &start);
    }
    add_gap_fillings(cases);
    add_two_bodies_met(cases);
    show(cases);
}

/// What holds 100..109 before the event: granted bytes, recalled bytes, both,
/// or a hole between them.
fn starting_tables() -> [Vec<Event>; 4] {
    let base = grant(2, 100, 109, &small_body(2));
    [
        vec![base.clone()],
        vec![base.clone(), recall(2, 100, 109)],
        vec![base.clone(), recall(2, 101, 108)],
        vec![base, layout_return(2, 101, 108)],
    ]
}

fn add_each_range(cases: &mut CaseFileWriter, start: &[Event]) {
    for (place, &first) in AROUND.iter().enumerate() {
        for &last in &AROUND[place..] {
            let events = [
                grant(2, first, last, &small_body(2)),
                grant(2, first, last, &small_body(3)),
                layout_return(2, first, last),
                recall(IOMODE_ANY, first, last),
            ];
            for event in events {
                cases.event(Event::Revoke);
                start.iter().for_each(|event| cases.event(event.clone()));
                cases.event(event);
                cases.table(&TableCase::ShowTable);
            }
        }
    }
}

/// Grants between two segments: they touch one, both or none, under the same
/// body or another, and the neighbours are granted or recalled.
fn add_gap_fillings(cases: &mut CaseFileWriter) {
    for recalled in [None, Some((1, 100, 109)), Some((1, 120, 129)), Some((3, 100, 129))] {
        for (first, last) in [(110, 119), (110, 118), (111, 119), (105, 119), (110, 125), (95, 135)] {
            for body in [2, 3] {
                cases.event(Event::Revoke);
                cases.event(grant(1, 100, 109, &small_body(2)));
                cases.event(grant(1, 120, 129, &small_body(2)));
                if let Some((iomode, from, to)) = recalled {
                    cases.event(recall(iomode, from, to));
                }
                cases.event(grant(1, first, last, &small_body(body)));
                cases.event(recall(1, first, last));
                cases.table(&TableCase::ShowTable);
            }
        }
    }
}

/// Grants over a recalled segment and one of another body, in both orders: 21
/// is judged over the whole range before 22.
fn add_two_bodies_met(cases: &mut CaseFileWriter) {
    for (recalled_first, recalled_last) in [(0, 9), (10, 19), (0, 19), (30, 39)] {
        cases.event(Event::Revoke);
        cases.event(grant(2, 0, 9, &small_body(7)));
        cases.event(grant(2, 10, 19, &small_body(8)));
        cases.event(recall(2, recalled_first, recalled_last));
        for body in [7, 8, 9] {
            for (first, last) in [(0, 19), (5, 9), (9, 10), (10, 12), (18, 30), (20, 29)] {
                cases.event(grant(2, first, last, &small_body(body)));
            }
            cases.table(&TableCase::ShowTable);
            cases.event(layout_return(2, 20, 39));
        }
        show(cases);
    }
}
