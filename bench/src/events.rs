//! Events. Every call does the same: a refused event and one that changes nothing leave table and store; where an event changes the table, both kinds of
//! Rust copy the table first, inside the measured call, and what it changes in the store is copied back by all.

use crate::forms::{by_value_event, core_event, core_form, plain_event, tuned_event, tuned_form};
use crate::held::{body_of, layout4, Held, STEP};
use crate::race::{Race, Row};
use independent::event::{Event, RangeNumbers};
use independent::store::SLOT_LENGTH;
use std::hint::black_box;

struct Trial<'a> {
    held: &'a Held,
    work: &'static str,
    event: Event,
    answer: u32,
    changes_table: bool,
    /// So many bytes at the store's front are copied back after each call.
    copied_back: usize,
}

pub fn rows(held: &Held) -> Vec<Row> {
    let mut trials = if held.segments == 0 { vec![new_body(held)] } else { on_segments(held) };
    trials.push(Trial::kept(held, "return of a free range", Event::Return(rw(STEP, STEP)), 0));
    trials.push(Trial::kept(held, "recall of a free range, refused", Event::Recall(rw(STEP, STEP)), 25));
    trials.push(revoke(held));
    trials.iter().map(Trial::row).collect()
}

fn rw(offset: u64, length: u64) -> RangeNumbers {
    RangeNumbers { offset, length, iomode: 2 }
}

fn new_body(held: &Held) -> Trial<'_> {
    let event = Event::Grant(layout4(0, STEP, body_of(0, 0)));
    Trial { copied_back: SLOT_LENGTH, ..Trial::changing(held, "grant of a new body", event) }
}

/// In the middle of the list. A full list has no place for a cut, so there half a segment is returned and a whole one recalled. No slot is emptied.
fn on_segments(held: &Held) -> Vec<Trial<'_>> {
    let segment = held.segments / 2;
    let first = 2 * segment * STEP;
    let grant = |offset, length| Event::Grant(layout4(offset, length, body_of(segment, held.slots)));
    let inside = rw(first + STEP / 4, STEP / 2);
    let (returned, recalled) = if held.segments < 32 {
        (("return inside a segment", inside), ("recall inside a segment", inside))
    } else {
        (("return of half a segment", rw(first, STEP / 2)), ("recall of a segment", rw(first, STEP)))
    };
    vec![
        Trial::kept(held, "grant of a held range", grant(first, STEP), 0),
        Trial::changing(held, "grant after a segment", grant(first + STEP, STEP / 2)),
        Trial::changing(held, returned.0, Event::Return(returned.1)),
        Trial::changing(held, recalled.0, Event::Recall(recalled.1)),
    ]
}

fn revoke(held: &Held) -> Trial<'_> {
    let copied_back = held.slots as usize * SLOT_LENGTH;
    Trial { copied_back, changes_table: held.segments > 0, ..Trial::kept(held, "revoke", Event::Revoke, 0) }
}

impl<'a> Trial<'a> {
    fn kept(held: &'a Held, work: &'static str, event: Event, answer: u32) -> Self {
        Trial { held, work, event, answer, changes_table: false, copied_back: 0 }
    }

    fn changing(held: &'a Held, work: &'static str, event: Event) -> Self {
        Trial { changes_table: true, ..Trial::kept(held, work, event, 0) }
    }

    fn row(&self) -> Row {
        self.check();
        let Trial { held, event, changes_table, copied_back, .. } = self;
        let (changes, original) = (*changes_table, &held.store[..*copied_back]);
        let [mut store, mut plain_store, mut tuned_store, mut by_value_store] = [(); 4].map(|()| held.store.clone());
        let (mut plain, mut tuned) = (held.plain.clone(), held.tuned);
        let core = move || {
            let refusal = core_event(*black_box(&held.core), black_box(&mut store), black_box(event)).refusal;
            store[..original.len()].copy_from_slice(original);
            refusal
        };
        let plain = move || {
            if changes {
                plain.clone_from(black_box(&held.plain));
            }
            let refusal = plain_event(&mut plain, black_box(&mut plain_store), black_box(event));
            plain_store[..original.len()].copy_from_slice(original);
            refusal
        };
        let tuned = move || {
            if changes {
                tuned = *black_box(&held.tuned);
            }
            let refusal = tuned_event(&mut tuned, black_box(&mut tuned_store), black_box(event));
            tuned_store[..original.len()].copy_from_slice(original);
            refusal
        };
        let by_value = move || {
            let refusal =
                by_value_event(*black_box(&held.core), black_box(&mut by_value_store), black_box(event)).refusal;
            by_value_store[..original.len()].copy_from_slice(original);
            refusal
        };
        Race::new(&format!("{}, {}", self.work, held.name()), core, plain).tuned(tuned).by_value(by_value).run()
    }

    /// All rivals answer and do the same, and what the trial says is so.
    fn check(&self) {
        let Trial { held, event, .. } = self;
        let [mut store, mut plain_store, mut tuned_store, mut by_value_store] = [(); 4].map(|()| held.store.clone());
        let (mut plain, mut tuned) = (held.plain.clone(), held.tuned);
        let core = core_event(held.core, &mut store, event);
        let by_value = by_value_event(held.core, &mut by_value_store, event);
        let answers = [
            core.refusal,
            plain_event(&mut plain, &mut plain_store, event),
            tuned_event(&mut tuned, &mut tuned_store, event),
        ];
        assert_eq!(answers, [self.answer; 3], "{}", self.work);
        assert!(by_value == core && by_value_store == store, "{}: by value", self.work);
        assert!(core.table == core_form(&plain) && tuned == tuned_form(&plain), "{}: tables differ", self.work);
        assert!(store == plain_store && tuned_store == plain_store, "{}: stores differ", self.work);
        assert_eq!(plain != held.plain, self.changes_table, "{}", self.work);
        assert!(store[self.copied_back..] == held.store[self.copied_back..], "{}", self.work);
    }
}
