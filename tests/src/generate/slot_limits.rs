//! Eight bodies, a ninth, and slots that are freed and used again.

use super::layouts::body_of_length;
use super::show;
use independent::cases::CaseFileWriter;
use independent::event::Event;
use independent::iomode::IOMODE_ANY;
use independent::range::LAST_BYTE;
use independent::samples::events::{grant, layout_return, recall, small_body};
use independent::table_cases::TableCase;

/// Body number n is granted at n * 100 .. n * 100 + 49.
const STEP: u64 = 100;

pub fn add(cases: &mut CaseFileWriter) {
    add_ninth_body(cases);
    add_slots_used_again(cases);
    add_named_from_both_iomodes(cases);
    add_lowest_of_several(cases);
    add_before_the_segment_limit(cases);
    add_long_bodies(cases);
}

fn first_of(number: u32) -> u64 {
    u64::from(number) * STEP
}

fn grant_at_home(iomode: u32, number: u32) -> Event {
    grant(iomode, first_of(number), first_of(number) + 49, &small_body(number))
}

fn fill(cases: &mut CaseFileWriter) {
    cases.table(&TableCase::Reset);
    for number in 0..8 {
        cases.event(grant_at_home(1 + number % 2, number));
    }
}

/// "8 bodies held: a ninth, on bytes not held, is 24", and on held bytes 21.
fn add_ninth_body(cases: &mut CaseFileWriter) {
    fill(cases);
    show(cases);
    for number in 0..8 {
        let first = first_of(number);
        cases.event(grant(1, first + 60, first + 69, &small_body(20 + number)));
        cases.event(grant(2, first + 50, first + 99, &small_body(8)));
        cases.event(grant(1 + number % 2, first + 49, first + 50, &small_body(8)));
        // Free in this iomode, held in the other: a body of its own.
        cases.event(grant(2 - number % 2, first, first + 9, &small_body(8)));
        // A body that has a slot needs none.
        cases.event(grant(1, first + 70, first + 79, &small_body(number)));
    }
    // A recalled body still has its slot, and so has one returned in part.
    cases.event(recall(IOMODE_ANY, 0, LAST_BYTE));
    cases.event(layout_return(IOMODE_ANY, 0, 30));
    for number in 0..8 {
        cases.event(grant(2, first_of(number) + 80, first_of(number) + 99, &small_body(8)));
        cases.event(grant(2, first_of(number) + 80, first_of(number) + 89, &small_body(number)));
    }
    show(cases);
}

/// "after one is wholly returned it is accepted in that slot"
fn add_slots_used_again(cases: &mut CaseFileWriter) {
    fill(cases);
    for number in 0..8 {
        let first = first_of(number);
        cases.event(grant(1, 2_000, 2_009, &small_body(9)));
        cases.event(layout_return(IOMODE_ANY, first + 1, first + 49));
        cases.event(grant(1, 2_000, 2_009, &small_body(9)));
        cases.event(layout_return(IOMODE_ANY, first, first));
        cases.table(&TableCase::ShowStore);
        cases.event(grant(1, 2_000, 2_009, &small_body(9)));
        show(cases);
        cases.event(grant_at_home(1 + number % 2, number));
        cases.event(layout_return(1, 2_000, 2_009));
        cases.event(grant_at_home(1 + number % 2, number));
    }
    show(cases);
}

/// A slot that both iomodes name is kept until the second one lets go.
fn add_named_from_both_iomodes(cases: &mut CaseFileWriter) {
    for (one, other) in [(1, 2), (2, 1)] {
        cases.table(&TableCase::Reset);
        cases.event(grant(one, 0, 9, &small_body(10)));
        cases.event(grant(other, 100, LAST_BYTE, &small_body(10)));
        cases.event(recall(other, 0, LAST_BYTE));
        for iomode in [one, other] {
            cases.event(layout_return(iomode, 0, LAST_BYTE));
            show(cases);
        }
    }
}

/// The lowest unnamed slot is taken, whichever was freed last.
fn add_lowest_of_several(cases: &mut CaseFileWriter) {
    fill(cases);
    for freed in [[6, 1], [3, 4], [0, 7]] {
        for number in freed {
            cases.event(layout_return(IOMODE_ANY, first_of(number), first_of(number) + 99));
        }
        cases.table(&TableCase::ShowStore);
        for number in freed {
            cases.event(grant_at_home(2, 30 + number));
            cases.table(&TableCase::ShowStore);
        }
    }
    show(cases);
}

/// 24 comes before 23, and 21 and 22 come before both.
fn add_before_the_segment_limit(cases: &mut CaseFileWriter) {
    fill(cases);
    let first_of_place = |place: u32| 10_000 + u64::from(place) * 10;
    for place in 0..28 {
        let first = first_of_place(place);
        cases.event(grant(2, first, first + 4, &small_body(place % 8)));
    }
    cases.event(recall(2, first_of_place(27), first_of_place(27) + 4));
    cases.table(&TableCase::ShowTable);
    for place in 0..28 {
        let first = first_of_place(place);
        cases.event(grant(2, first + 6, first + 8, &small_body(40)));
        cases.event(grant(2, first + 6, first + 8, &small_body(place % 8)));
        cases.event(grant(2, first + 4, first + 5, &small_body(41)));
    }
    cases.event(grant(2, first_of_place(27) + 3, first_of_place(27) + 8, &small_body(27 % 8)));
    cases.event(grant(2, first_of_place(27) + 3, first_of_place(27) + 8, &small_body(42)));
    cases.event(Event::Revoke);
    show(cases);
}

/// A slot is written whole: nothing of a longer body stays after it.
fn add_long_bodies(cases: &mut CaseFileWriter) {
    cases.table(&TableCase::Reset);
    cases.event(grant(2, 0, 9, &body_of_length(4_088)));
    cases.event(grant(1, 0, 9, &small_body(2)));
    show(cases);
    cases.event(grant(2, 5, 19, &body_of_length(4_088)));
    cases.event(layout_return(2, 0, 19));
    cases.table(&TableCase::ShowStore);
    cases.event(grant(2, 0, 9, &small_body(3)));
    show(cases);
}
