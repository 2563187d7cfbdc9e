//! Tables with 32 segments in an iomode, and one or two less.

use super::{show, GRANT_IOMODES};
use independent::cases::CaseFileWriter;
use independent::event::Event;
use independent::iomode::IOMODE_ANY;
use independent::range::LAST_BYTE;
use independent::samples::events::{grant, layout_return, recall, small_body};
use independent::samples::random::Random;
use independent::table_cases::TableCase;

/// The segments are 0..9, 20..29, 40..49 and so on.
const STEP: u64 = 20;
/// A recall inside a segment makes three of it: so many make 31 of one.
const RECALLS: u64 = 15;
/// The most events that are put to a full list.
const MOST_REFUSED: usize = 8;
/// A reset, a grant, the recalls and one more, and the events that are refused.
pub const MOST_IN_FULL_LIST: usize = 3 + RECALLS as usize + MOST_REFUSED;

pub fn add(cases: &mut CaseFileWriter) {
    for iomode in GRANT_IOMODES {
        add_full_list(cases, iomode);
        add_nearly_full_list(cases, iomode);
        add_one_list_full(cases, iomode);
    }
    add_merges_in_a_full_list(cases);
    add_recalled_neighbours(cases);
}

/// A list of 32 segments somewhere in the file, and events that would need
/// more, or are grants of recalled bytes; at most [`MOST_IN_FULL_LIST`] cases.
pub fn random_full_list(random: &mut Random) -> Vec<TableCase> {
    let iomode = random.pick(&GRANT_IOMODES);
    let origin = random.pick(&[0, 1_000, 1 << 32, LAST_BYTE - 1_000]);
    let body = small_body(random.below(40) as u32);
    let first_of = |place: u64| origin + place * STEP;
    let mut events = vec![grant(iomode, origin, first_of(RECALLS + 1) - 1, &body)];
    events.extend((1..=RECALLS).map(|place| recall(iomode, first_of(place), first_of(place) + 9)));
    events.push(recall(iomode, origin, origin));
    for _ in 0..random.between(1, MOST_REFUSED) {
        let first = first_of(random.between(1, RECALLS as usize) as u64);
        let acting = random.pick(&[iomode, IOMODE_ANY]);
        events.push(match random.below(5) {
            // Inside a recalled segment.
            0 => grant(iomode, first + 2, first + 7, &body),
            1 => layout_return(acting, first + 2, first + 7),
            // Inside a granted one.
            2 => layout_return(acting, first + 12, first + 17),
            3 => recall(acting, first + 12, first + 17),
            // After all of them.
            _ => grant(iomode, first_of(RECALLS + 2), first_of(RECALLS + 3), &body),
        });
    }
    [TableCase::Reset].into_iter().chain(events.into_iter().map(TableCase::Event)).collect()
}

fn fill(cases: &mut CaseFileWriter, iomode: u32, count: u64) {
    for place in 0..count {
        cases.event(grant(iomode, place * STEP, place * STEP + 9, &small_body(2)));
    }
}

/// "32 segments in an iomode and a return inside one, touching neither of its
/// ends: 23. The same return of the whole file: accepted."
fn add_full_list(cases: &mut CaseFileWriter, iomode: u32) {
    for whole in [layout_return, recall] {
        cases.table(&TableCase::Reset);
        fill(cases, iomode, 33);
        show(cases);
        for first in [0, 7 * STEP, 31 * STEP] {
            for acting in [iomode, IOMODE_ANY] {
                cases.event(layout_return(acting, first + 4, first + 5));
                cases.event(recall(acting, first + 1, first + 1));
                cases.event(recall(acting, first, first + 8));
                cases.event(recall(acting, first + 9, first + STEP));
            }
            cases.event(grant(iomode, first + 12, first + 12, &small_body(2)));
            cases.event(grant(iomode, first + 10, first + 10, &small_body(3)));
            cases.event(grant(iomode, first + 4, first + 12, &small_body(3)));
        }
        cases.event(grant(iomode, LAST_BYTE, LAST_BYTE, &small_body(2)));
        cases.table(&TableCase::ShowTable);
        cases.event(whole(IOMODE_ANY, 0, LAST_BYTE));
        show(cases);
        cases.event(Event::Revoke);
        show(cases);
    }
}

/// One place is left: a return inside a segment takes it, a recall there needs
/// two.
fn add_nearly_full_list(cases: &mut CaseFileWriter, iomode: u32) {
    for count in [30, 31] {
        for event in [layout_return, recall] {
            cases.table(&TableCase::Reset);
            fill(cases, iomode, count);
            for first in [5 * STEP, 6 * STEP] {
                cases.event(event(iomode, first + 4, first + 5));
                cases.table(&TableCase::ShowTable);
            }
            cases.event(event(iomode, 8 * STEP, 9 * STEP));
            cases.event(grant(iomode, 29 * STEP + 10, 29 * STEP + 10, &small_body(4)));
            show(cases);
        }
    }
}

/// "23 for either refuses the whole event": the other iomode stays too.
fn add_one_list_full(cases: &mut CaseFileWriter, iomode: u32) {
    cases.table(&TableCase::Reset);
    fill(cases, iomode, 32);
    cases.event(grant(3 - iomode, 0, 999, &small_body(3)));
    for first in [3 * STEP + 3, 30 * STEP + 1] {
        for event in [layout_return, recall] {
            cases.event(event(IOMODE_ANY, first, first + 2));
            cases.table(&TableCase::ShowTable);
            cases.event(event(3 - iomode, first, first + 2));
        }
    }
    // Between two segments of the full list, only the other one is cut.
    cases.event(layout_return(IOMODE_ANY, 4 * STEP + 10, 4 * STEP + 19));
    show(cases);
    cases.event(layout_return(IOMODE_ANY, 0, LAST_BYTE));
    show(cases);
}

/// A grant that joins segments is judged by the list that results.
fn add_merges_in_a_full_list(cases: &mut CaseFileWriter) {
    cases.table(&TableCase::Reset);
    fill(cases, 2, 32);
    let gaps = [(10, 19), (30, 35), (36, 39), (45, 75), (110, 110), (139, 139), (200, 400)];
    for (first, last) in gaps {
        cases.event(grant(2, first, last, &small_body(2)));
        cases.table(&TableCase::ShowTable);
    }
    cases.event(grant(2, 0, LAST_BYTE, &small_body(2)));
    show(cases);
}

/// A recall beside recalled bytes of the same body needs no new segment.
fn add_recalled_neighbours(cases: &mut CaseFileWriter) {
    cases.table(&TableCase::Reset);
    fill(cases, 1, 31);
    cases.event(recall(1, 0, 3));
    for (first, last) in [(4, 4), (2, 6), (6, 7), (8, 8), (7, 9), (20, 21), (24, 25), (20, 29)] {
        cases.event(recall(1, first, last));
        cases.table(&TableCase::ShowTable);
    }
    cases.event(grant(1, 10, 19, &small_body(2)));
    cases.event(layout_return(1, 2, 7));
    cases.event(recall(1, 0, LAST_BYTE));
    show(cases);
}

#[cfg(test)]
mod tests {
    use super::*;
    use independent::refusal::Refusal;
    use independent::state::State;

    /// The list is filled without a refusal, and all that follows is refused
    /// with 22 or 23.
    #[test]
    fn random_full_lists_are_full() {
        let mut random = Random::new(73);
        for _ in 0..100 {
            let cases = random_full_list(&mut random);
            assert!(cases.len() <= MOST_IN_FULL_LIST);
            let (start, refused) = cases.split_at(MOST_IN_FULL_LIST - MOST_REFUSED);
            let mut state = State::default();
            let mut apply = |case: &TableCase| match case {
                TableCase::Event(event) => state.apply(event),
                _ => Ok(()),
            };
            assert!(start.iter().all(|case| apply(case) == Ok(())));
            assert!(!refused.is_empty());
            for answer in refused.iter().map(apply) {
                assert!([Err(Refusal::Recalled), Err(Refusal::TooManySegments)].contains(&answer), "{answer:?}");
            }
        }
    }
}
