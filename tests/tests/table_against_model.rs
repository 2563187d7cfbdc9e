//! Random event lists, put to the table and to the model.

#[path = "support/side_by_side.rs"]
mod side_by_side;

use case_files::generate::event_bursts::EventSource;
use independent::event::{Event, RangeNumbers};
use independent::iomode::{iomodes_acted_on, Iomode};
use independent::layout4::read_layout4;
use independent::model_slots::BodyRight;
use independent::range::{byte_range, LAST_BYTE};
use independent::samples::random::Random;
use independent::segments::Right;
use independent::store::{body_in, slots};
use side_by_side::SideBySide;
use std::collections::BTreeMap;

const LISTS: u64 = 60;
const EVENTS_A_LIST: usize = 300;
/// Every so many events the rights are compared byte by byte.
const EVENTS_A_LOOK: usize = 25;

/// What the lists have reached.
#[derive(Default)]
struct Reached {
    answers: BTreeMap<(&'static str, u8), usize>,
    merges: usize,
    recall_merges: usize,
    all_slots_filled: usize,
    full_lists: usize,
    slots_used_again: usize,
    last_bytes_held: usize,
}

impl Reached {
    fn note(&mut self, before: &SideBySide, event: &Event, answer: u8, both: &SideBySide) {
        *self.answers.entry((event.name(), answer)).or_default() += 1;
        let count = |side: &SideBySide| {
            let lists = Iomode::BOTH.map(|iomode| side.state.table.segments(iomode).len());
            lists[0] + lists[1]
        };
        if count(both) < count(before) {
            self.merges += usize::from(event.name() == "grant");
            self.recall_merges += usize::from(event.name() == "recall");
        }
        self.all_slots_filled += usize::from(both.model.slots().filled() == 8);
        for iomode in Iomode::BOTH {
            let list = both.state.table.segments(iomode);
            self.full_lists += usize::from(list.len() == 32);
            self.last_bytes_held += usize::from(list.last().is_some_and(|s| s.last == LAST_BYTE));
        }
    }

    fn count(&self, number: u8) -> usize {
        self.answers.iter().filter(|((_, answer), _)| *answer == number).map(|(_, n)| n).sum()
    }
}

/// The right of a byte as table and store show it.
fn shown_right(both: &SideBySide, iomode: Iomode, byte: u64) -> BodyRight {
    let list = both.state.table.segments(iomode);
    let here = list.iter().find(|segment| segment.first <= byte && byte <= segment.last);
    let right = here.map_or(Right::None, |segment| segment.right);
    let body = |slot: u32| {
        let slot = slots(&both.state.store).nth(slot as usize).expect("a slot");
        body_in(slot).expect("a body").to_vec()
    };
    match right {
        Right::None => BodyRight::None,
        Right::Granted(slot) => BodyRight::Granted(body(slot)),
        Right::Recalled(slot) => BodyRight::Recalled(body(slot)),
    }
}

/// The right that the accepted events covering a byte give, taken in order.
fn folded_right(accepted: &[Event], iomode: Iomode, byte: u64) -> BodyRight {
    let covers = |numbers: &RangeNumbers| {
        let range = byte_range(numbers.offset, numbers.length).expect("an accepted range");
        let iomodes = iomodes_acted_on(numbers.iomode).expect("an accepted iomode");
        range.first <= byte && byte <= range.last && iomodes.contains(&iomode)
    };
    let mut right = BodyRight::None;
    for event in accepted {
        match event {
            Event::Grant(bytes) => {
                let layout = read_layout4(bytes).expect("an accepted grant");
                let (offset, length) = (layout.offset, layout.length);
                if covers(&RangeNumbers { offset, length, iomode: layout.iomode }) {
                    right = BodyRight::Granted(layout.body(bytes).to_vec());
                }
            }
            Event::Return(numbers) if covers(numbers) => right = BodyRight::None,
            Event::Recall(numbers) if covers(numbers) => right.recall(),
            Event::Revoke => right = BodyRight::None,
            _ => {}
        }
    }
    right
}

/// The bytes at which a right may change, those beside them, and both ends.
fn looked_at(both: &SideBySide, iomode: Iomode) -> Vec<u64> {
    let mut bytes = vec![0, 1, LAST_BYTE - 1, LAST_BYTE];
    for byte in both.model.break_points(iomode) {
        bytes.extend([byte.saturating_sub(1), byte, byte.saturating_add(1)]);
    }
    bytes.sort_unstable();
    bytes.dedup();
    bytes
}

fn compare_rights(both: &SideBySide) {
    for iomode in Iomode::BOTH {
        for byte in looked_at(both, iomode) {
            let shown = shown_right(both, iomode, byte);
            assert_eq!(*both.model.right_at(iomode, byte), shown, "byte {byte}");
        }
    }
}

/// Whether each slot has been named, was freed, and was named again.
#[derive(Default)]
struct SlotLives {
    was_named: [bool; 8],
    was_freed: [bool; 8],
}

impl SlotLives {
    fn note(&mut self, both: &SideBySide, reached: &mut Reached) {
        for (slot, named) in both.state.table.named_slots().into_iter().enumerate() {
            if named && self.was_freed[slot] {
                reached.slots_used_again += 1;
                self.was_freed[slot] = false;
            }
            self.was_freed[slot] |= self.was_named[slot] && !named;
            self.was_named[slot] = named;
        }
    }
}

fn run_list(seed: u64, reached: &mut Reached) {
    let mut random = Random::new(seed);
    let mut source = EventSource::new(&mut random);
    let mut both = SideBySide::default();
    let mut lives = SlotLives::default();
    let mut accepted = Vec::new();
    for number in 0..EVENTS_A_LIST {
        let event = source.next_event(&mut random);
        let before = both.clone();
        let answer = both.apply(&event);
        reached.note(&before, &event, answer, &both);
        lives.note(&both, reached);
        if answer == 0 {
            accepted.push(event);
        }
        if number % EVENTS_A_LOOK == 0 {
            compare_rights(&both);
        }
    }
    compare_rights(&both);
    for iomode in Iomode::BOTH {
        for byte in looked_at(&both, iomode) {
            let folded = folded_right(&accepted, iomode, byte);
            assert_eq!(*both.model.right_at(iomode, byte), folded, "seed {seed}, byte {byte}");
        }
    }
}

#[test]
fn random_lists() {
    let mut reached = Reached::default();
    for seed in 0..LISTS {
        run_list(seed, &mut reached);
    }
    for number in [0, 3, 5, 8, 21, 22, 23, 24, 25] {
        let count = reached.count(number);
        assert!(count >= 20, "answer {number} comes {count} times: {:?}", reached.answers);
    }
    assert_eq!(reached.count(20), 0);
    for name in ["grant", "return", "recall"] {
        let count = reached.answers.get(&(name, 23)).copied().unwrap_or(0);
        assert!(count >= 5, "{name} is refused as 23 {count} times");
    }
    assert!(reached.merges >= 20, "{} merges", reached.merges);
    assert!(reached.recall_merges >= 20, "{} merges by recalls", reached.recall_merges);
    assert!(reached.all_slots_filled >= 100, "{} times 8 bodies", reached.all_slots_filled);
    assert!(reached.full_lists >= 100, "{} times 32 segments", reached.full_lists);
    assert!(reached.slots_used_again >= 100, "{} slots again", reached.slots_used_again);
    assert!(reached.last_bytes_held >= 100, "{} times the last byte", reached.last_bytes_held);
}
