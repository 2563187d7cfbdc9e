//! The requests of a case file that are judged by rights, each with the state
//! that it is put to.

use independent::cases::{Case, CaseFile};
use independent::io_request::IoRequest;
use independent::range::check_io_range;
use independent::state::State;
use independent::store::{body_in, slots};
use independent::table_cases::TableCase;
use independent::table_lines::table_case_line;

/// Hands each of them on; 20 and 5 come before the rights.
pub fn for_each_request(file: &[u8], mut look: impl FnMut(&State, &IoRequest)) {
    let mut state = State::default();
    for case in CaseFile::new(file) {
        let Case::Table(case) = case else { continue };
        if let TableCase::Locate(request) = &case {
            if state.is_sound() && check_io_range(request.offset, request.length).is_ok() {
                look(&state, request);
            }
        }
        table_case_line(&mut state, &case);
    }
}

/// The body in a slot that a sound table names.
pub fn body_of(state: &State, slot: u32) -> &[u8] {
    slots(&state.store).nth(slot as usize).and_then(body_in).expect("a body")
}
