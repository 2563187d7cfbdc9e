//! Good and bad `layout4` bytes as grants, to an empty table and to one that
//! holds something.

use super::layout4s::all_layouts;
use super::show;
use independent::cases::CaseFileWriter;
use independent::event::Event;
use independent::samples::events::{grant, small_body};
use independent::table_cases::TableCase;

/// Longer ones are put to the reader alone.
const LONGEST: usize = 200;
/// How many grants are put to a table before it is emptied.
const GRANTS_A_TABLE: usize = 12;

pub fn add(cases: &mut CaseFileWriter) {
    let layouts = all_layouts().into_iter().filter(|layout| layout.len() <= LONGEST);
    for (place, layout) in layouts.enumerate() {
        if place % GRANTS_A_TABLE == 0 {
            show(cases);
            cases.table(&TableCase::Reset);
            if place % (2 * GRANTS_A_TABLE) == 0 {
                cases.event(grant(2, 1 << 32, 1 << 40, &small_body(2)));
            }
        }
        cases.event(Event::Grant(layout));
    }
    show(cases);
}
