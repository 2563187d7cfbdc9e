//! Corrupted tables and stores: each of the four events and each request
//! for I/O is refused as 20, whatever else would be wrong with it.

use super::show;
use independent::cases::CaseFileWriter;
use independent::event::{Event, RangeNumbers};
use independent::io_request::IoRequest;
use independent::iomode::Iomode;
use independent::range::LAST_BYTE;
use independent::samples::events::{grant, layout_return, recall, small_body};
use independent::segments::{Right, Segment};
use independent::store::{BODY_IN_SLOT, SLOT_LENGTH, STORE_LENGTH};
use independent::table_cases::TableCase;

pub fn add(cases: &mut CaseFileWriter) {
    for corruption in corrupt_slots().into_iter().chain(corrupt_entries()) {
        add_corrupted(cases, &[corruption]);
    }
    for length in [0, 1, 4_095, 4_096, 32_767, 32_768] {
        add_corrupted(cases, &[TableCase::SetBorrowed(length)]);
    }
    add_corrupted(cases, &bodies_made_alike());
    add_corrupted(cases, &segments_swapped());
    add_borrowed_again(cases);
    add_full_by_hand(cases);
}

/// The body in slot 0, and the one in slot 1, which differs in its last byte.
fn two_bodies() -> [Vec<u8>; 2] {
    let one = small_body(2);
    let mut other = one.clone();
    if let Some(last) = other.last_mut() {
        *last ^= 1;
    }
    [one, other]
}

/// RW 0..9 granted, 10..19 recalled and 20..99 granted in slot 0, and 200 to
/// the last byte in slot 1; READ 50..59 in slot 0.
fn add_sound_start(cases: &mut CaseFileWriter) {
    let [one, other] = two_bodies();
    cases.table(&TableCase::Reset);
    cases.event(grant(2, 0, 99, &one));
    cases.event(recall(2, 10, 19));
    cases.event(grant(2, 200, LAST_BYTE, &other));
    cases.event(grant(1, 50, 59, &one));
}

fn add_corrupted(cases: &mut CaseFileWriter, corruptions: &[TableCase]) {
    add_sound_start(cases);
    corruptions.iter().for_each(|corruption| cases.table(corruption));
    add_each_call(cases);
    show(cases);
}

/// Requests for I/O, bytes and numbers that are refused otherwise come first:
/// they change nothing where the corrupted table is sound after all.
fn add_each_call(cases: &mut CaseFileWriter) {
    let [one, _] = two_bodies();
    cases.locate(IoRequest::read(55, 50));
    cases.locate(IoRequest::write(15, 50));
    cases.locate(IoRequest::write(250, 0));
    cases.event(Event::Grant(vec![0; 15]));
    cases.event(Event::Recall(RangeNumbers { offset: 0, length: 0, iomode: 9 }));
    cases.event(recall(1, 500, 600));
    cases.event(grant(1, 60, 69, &one));
    cases.event(recall(3, 50, 51));
    cases.event(layout_return(3, 5, 55));
    cases.table(&TableCase::ShowTable);
    cases.event(Event::Revoke);
}

/// One byte set, in a header, a body, the zeros after it, or a slot that no
/// segment names. Some of these leave an accepted body.
fn corrupt_slots() -> Vec<TableCase> {
    let length = two_bodies()[0].len();
    let behind = BODY_IN_SLOT + length;
    let in_slot = [0, 1, 2, 3, 4, 5, 6, 13, 17, 21, 40, 45, 61, 65].into_iter().chain([
        behind - 5,
        behind - 4,
        behind - 1,
        behind,
        behind + 1,
        4_094,
        4_095,
    ]);
    let mut cases = Vec::new();
    for offset in in_slot {
        for slot in [0, 1] {
            cases.push(TableCase::SetByte { offset: slot * SLOT_LENGTH + offset, value: 0x55 });
        }
    }
    for value in [0, 1, 79, 81, 84, 250, 255] {
        cases.push(TableCase::SetByte { offset: 0, value });
    }
    for offset in [2, 3, 5, 7].map(|slot| slot * SLOT_LENGTH) {
        for inside in [0, 4, 6, 2_000, 4_095] {
            cases.push(TableCase::SetByte { offset: offset + inside, value: 4 });
        }
    }
    cases.push(TableCase::SetByte { offset: STORE_LENGTH - 1, value: 1 });
    cases.push(TableCase::SetByte { offset: STORE_LENGTH - 1, value: 0 });
    cases
}

/// "no two alike"
fn bodies_made_alike() -> [TableCase; 1] {
    let [one, _] = two_bodies();
    let offset = SLOT_LENGTH + BODY_IN_SLOT + one.len() - 1;
    [TableCase::SetByte { offset, value: one[one.len() - 1] }]
}

fn set(iomode: Iomode, index: usize, first: u64, last: u64, right: Right) -> TableCase {
    TableCase::SetSegment { iomode, index, segment: Segment { first, last, right } }
}

/// One entry of the table set. Some of these are sound.
fn corrupt_entries() -> Vec<TableCase> {
    let mut cases = Vec::new();
    let rw = |index, first, last, right| set(Iomode::ReadWrite, index, first, last, right);
    for right in [Right::None, Right::Granted(0), Right::Recalled(0), Right::Granted(1)] {
        // In place of 10..19: as it was, shorter, over its neighbours, with
        // its ends changed about, and blank.
        for (first, last) in [(10, 19), (11, 18), (9, 19), (10, 20), (19, 10), (0, 0)] {
            cases.push(rw(1, first, last, right));
        }
        for (first, last) in [(100, 199), (99, 150), (LAST_BYTE, LAST_BYTE), (0, LAST_BYTE)] {
            cases.push(rw(3, first, last, right));
        }
        // After the last segment, with and without a blank entry between.
        for index in [4, 5, 31] {
            cases.push(rw(index, 0, 0, right));
            cases.push(rw(index, LAST_BYTE, LAST_BYTE, right));
        }
        cases.push(set(Iomode::Read, 1, 60, 60, right));
        cases.push(set(Iomode::Read, 0, 3, 2, right));
        cases.push(set(Iomode::Read, 31, 5, 5, right));
    }
    for slot in [2, 7, 8, 9, 255] {
        cases.push(rw(1, 10, 19, Right::Granted(slot)));
        cases.push(set(Iomode::Read, 0, 50, 59, Right::Recalled(slot)));
    }
    // The slot that is no longer named is not zero.
    cases.push(rw(3, 200, LAST_BYTE, Right::Granted(0)));
    cases
}

/// The two outer segments of RW are exchanged.
fn segments_swapped() -> [TableCase; 2] {
    [set(Iomode::ReadWrite, 0, 200, LAST_BYTE, Right::Granted(1)), set(Iomode::ReadWrite, 3, 0, 9, Right::Granted(0))]
}

/// The whole store borrowed again, and a byte set while less was borrowed.
fn add_borrowed_again(cases: &mut CaseFileWriter) {
    add_sound_start(cases);
    cases.table(&TableCase::SetBorrowed(100));
    cases.table(&TableCase::SetByte { offset: 9_000, value: 7 });
    cases.event(Event::Revoke);
    cases.table(&TableCase::SetBorrowed(STORE_LENGTH));
    cases.event(Event::Revoke);
    cases.table(&TableCase::SetByte { offset: 9_000, value: 0 });
    cases.event(recall(3, 55, 55));
    cases.table(&TableCase::SetBorrowed(STORE_LENGTH - 1));
    add_each_call(cases);
    cases.table(&TableCase::Reset);
    cases.event(grant(2, 0, 9, &small_body(3)));
    show(cases);
}

/// All 32 entries set by hand: sound, then with the last two touching alike.
fn add_full_by_hand(cases: &mut CaseFileWriter) {
    for last_first in [3_100, 3_050] {
        add_sound_start(cases);
        cases.event(layout_return(2, 200, LAST_BYTE));
        for index in 0..31 {
            let first = index as u64 * 100;
            cases.table(&set(Iomode::ReadWrite, index, first, first + 49, Right::Granted(0)));
        }
        cases.table(&set(Iomode::ReadWrite, 31, last_first, 3_149, Right::Granted(0)));
        cases.event(layout_return(2, 3_010, 3_020));
        add_each_call(cases);
        show(cases);
    }
}
