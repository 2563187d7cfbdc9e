//! Events in a file of few distinct bytes: the model with one cell a byte
//! against the table and the model with break points.

#[path = "support/side_by_side.rs"]
mod side_by_side;

use independent::cell_model::CellModel;
use independent::event::Event;
use independent::iomode::{Iomode, IOMODE_ANY};
use independent::range::LAST_BYTE;
use independent::samples::events::{grant, layout_return, recall, small_body};
use independent::samples::random::Random;
use side_by_side::SideBySide;
use std::collections::BTreeMap;

const LISTS: u64 = 120;
const EVENTS_A_LIST: usize = 200;

/// The first and the last `edge` bytes of a file, and the bytes between them
/// as a whole.
struct Universe {
    edge: u64,
    /// Ranges of the file's end, of all of it or of many cells, once in so many.
    wide_once_in: usize,
}

impl Universe {
    fn cell_count(&self) -> usize {
        2 * self.edge as usize + 1
    }

    /// The first and last byte of a cell.
    fn cell(&self, number: usize) -> (u64, u64) {
        let number = number as u64;
        if number < self.edge {
            (number, number)
        } else if number == self.edge {
            (self.edge, LAST_BYTE - self.edge)
        } else {
            let byte = LAST_BYTE - (2 * self.edge - number);
            (byte, byte)
        }
    }

    /// A range from the start of a cell to the end of one; whole-file ranges
    /// and ranges to the file's end among them.
    fn range(&self, random: &mut Random) -> (u64, u64) {
        if random.once_in(4 * self.wide_once_in) {
            return (0, LAST_BYTE);
        }
        let one = random.below(self.cell_count());
        let most = if random.once_in(self.wide_once_in) { self.cell_count() } else { 3 };
        let other = (one + random.below(most)).min(self.cell_count() - 1);
        let to_the_end = random.once_in(2 * self.wide_once_in);
        let last = if to_the_end { LAST_BYTE } else { self.cell(other).1 };
        (self.cell(one).0, last)
    }

    fn event(&self, random: &mut Random, bodies: usize, grants_in_ten: usize) -> Event {
        let (first, last) = self.range(random);
        if random.once_in(8 * self.wide_once_in) {
            return Event::Revoke;
        }
        if random.below(10) < grants_in_ten {
            let body = small_body(random.below(bodies) as u32);
            return grant(random.pick(&[1, 1, 1, 2, 3]), first, last, &body);
        }
        let iomode = random.pick(&[0, 1, 1, 1, 1, 2, 2, IOMODE_ANY, IOMODE_ANY]);
        if random.once_in(2) {
            layout_return(iomode, first, last)
        } else {
            recall(iomode, first, last)
        }
    }
}

fn compare(both: &SideBySide, cells: &CellModel) {
    for iomode in Iomode::BOTH {
        assert_eq!(cells.segments(iomode.number()), both.state.table.segments(iomode));
        assert_eq!(cells.segments(iomode.number()), both.model.segments(iomode));
    }
    assert!(cells.slots().laid_out() == both.state.store);
}

/// Puts a list to all three and counts the answers by number.
fn run_list(seed: u64, answers: &mut BTreeMap<u8, usize>) -> usize {
    let mut random = Random::new(seed);
    let wide_once_in = random.pick(&[10, 50, 1_000]);
    let universe = Universe { edge: random.pick(&[3, 32, 64]), wide_once_in };
    let bodies = random.pick(&[1, 2, 4, 9, 12]);
    let grants_in_ten = random.pick(&[4, 6, 8]);
    let mut both = SideBySide::default();
    let mut cells = CellModel::with_edges(universe.edge);
    let mut full_lists = 0;
    for _ in 0..EVENTS_A_LIST {
        let event = universe.event(&mut random, bodies, grants_in_ten);
        let answer = both.apply(&event);
        let by_cells = cells.apply(&event).map_or_else(|refusal| refusal.number(), |()| 0);
        assert_eq!(by_cells, answer, "seed {seed}: {event:?}");
        compare(&both, &cells);
        *answers.entry(answer).or_default() += 1;
        full_lists += usize::from(both.state.table.segments(Iomode::Read).len() == 32);
    }
    full_lists
}

#[test]
fn cells_agree_with_table_and_model() {
    let mut answers = BTreeMap::new();
    let full_lists: usize = (0..LISTS).map(|seed| run_list(seed, &mut answers)).sum();
    for number in [0, 3, 21, 22, 23, 24, 25] {
        let count = answers.get(&number).copied().unwrap_or(0);
        assert!(count >= 20, "answer {number} comes {count} times");
    }
    assert!(full_lists >= 20, "{full_lists} times 32 segments");
}

/// Every list of three events from a small set, in a file of three cells.
#[test]
fn all_short_lists() {
    let universe = Universe { edge: 1, wide_once_in: 1 };
    let mut events = vec![Event::Revoke];
    for first in 0..3 {
        for last in first..3 {
            let (first, last) = (universe.cell(first).0, universe.cell(last).1);
            events.push(grant(1, first, last, &small_body(2)));
            events.push(grant(1, first, last, &small_body(3)));
            events.push(layout_return(1, first, last));
            events.push(recall(IOMODE_ANY, first, last));
        }
    }
    let start = (SideBySide::default(), CellModel::with_edges(1));
    let count = lists_from(&start, &events, 3);
    assert!(count > 1_000, "{count} lists");
}

/// Puts every list of the given length to a state. A refused event changes
/// nothing, so no list goes on after one. Gives the number of accepted lists.
fn lists_from(state: &(SideBySide, CellModel), events: &[Event], length: usize) -> usize {
    if length == 0 {
        return 1;
    }
    let mut count = 0;
    for event in events {
        let (mut both, mut cells) = state.clone();
        let answer = both.apply(event);
        let by_cells = cells.apply(event).map_or_else(|refusal| refusal.number(), |()| 0);
        assert_eq!(by_cells, answer, "{event:?}");
        compare(&both, &cells);
        if answer == 0 {
            count += lists_from(&(both, cells), events, length - 1);
        }
    }
    count
}
