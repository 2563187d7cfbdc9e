//! Random damage to a table or store, the calls that meet it, and its repair.

use independent::event::Event;
use independent::iomode::Iomode;
use independent::samples::random::Random;
use independent::segments::{Right, Segment};
use independent::state::State;
use independent::store::{SLOT_COUNT, SLOT_LENGTH, STORE_LENGTH};
use independent::table::SEGMENT_LIMIT;
use independent::table_cases::TableCase;

/// A corruption, the calls after it, what they left, and the case that undoes
/// it.
pub fn corruption_and_repair(random: &mut Random, state: &State, calls: Vec<TableCase>) -> Vec<TableCase> {
    let (corruption, repair) = match random.below(5) {
        0 => (TableCase::SetBorrowed(borrowed_length(random)), TableCase::SetBorrowed(STORE_LENGTH)),
        1 | 2 => corrupt_byte(random, state),
        _ => corrupt_entry(random, state),
    };
    let mut cases = vec![corruption];
    cases.extend(calls);
    cases.extend([TableCase::ShowTable, TableCase::ShowStore, repair]);
    cases
}

/// How many cases a [`refused_revoke`] has.
pub const REVOKE_CASES: usize = 3;

/// A revoke that is refused, by a store that is too short, and its repair.
pub fn refused_revoke(random: &mut Random) -> Vec<TableCase> {
    let short = TableCase::SetBorrowed(random.below(STORE_LENGTH));
    vec![short, TableCase::Event(Event::Revoke), TableCase::SetBorrowed(STORE_LENGTH)]
}

fn borrowed_length(random: &mut Random) -> usize {
    let any = random.below(STORE_LENGTH);
    random.pick(&[0, 1, 4_096, 16_384, 32_767, 32_768, any])
}

/// A byte of a header, of a body, after it, or anywhere.
fn corrupt_byte(random: &mut Random, state: &State) -> (TableCase, TableCase) {
    let in_slot = match random.below(4) {
        0 => random.below(6),
        1 => 6 + random.below(80),
        2 => random.pick(&[86, 142, 146, 150, 4_095]),
        _ => random.below(SLOT_LENGTH),
    };
    let offset = random.below(SLOT_COUNT) * SLOT_LENGTH + in_slot;
    let old = state.store[offset];
    let value = random.pick(&[0, 1, 4, 80, 255, old ^ 1]);
    (TableCase::SetByte { offset, value }, TableCase::SetByte { offset, value: old })
}

/// An entry of the table, mostly among the segments, in which one thing differs.
fn corrupt_entry(random: &mut Random, state: &State) -> (TableCase, TableCase) {
    let iomode = random.pick(&Iomode::BOTH);
    let count = state.table.segments(iomode).len();
    let index = if random.once_in(8) { SEGMENT_LIMIT - 1 } else { random.below(count + 1) };
    let index = index.min(SEGMENT_LIMIT - 1);
    let old = state.table.entries(iomode)[index];
    let slot = random.pick(&[0, 1, 2, 7, 8, 255]);
    let segment = match random.below(7) {
        0 => Segment { first: old.first.wrapping_sub(1), ..old },
        1 => Segment { last: old.last.wrapping_add(1), ..old },
        2 => Segment { first: old.last, last: old.first, right: old.right },
        3 => Segment { right: Right::None, ..old },
        4 => Segment { right: Right::Granted(slot), ..old },
        5 => Segment { right: Right::Recalled(slot), ..old },
        _ => Segment::default(),
    };
    let set = |segment| TableCase::SetSegment { iomode, index, segment };
    (set(segment), set(old))
}
