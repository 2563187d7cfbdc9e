//! 20 "table or shelf is unsound".

use crate::iomode::Iomode;
use crate::layout::read_layout_body;
use crate::refusal::Refusal;
use crate::segments::Segment;
use crate::store::{body_in, is_zero, slots, SLOT_COUNT, STORE_LENGTH};
use crate::table::Table;

/// 01: "Sound means: segments as above, at most 32 an iomode, blank places
/// blank; named slots are laid out as said and hold accepted bodies, no two
/// alike; unnamed slots zero; shelf of the right length."
pub fn check_sound(table: &Table, store: &[u8]) -> Result<(), Refusal> {
    let lists_are_sound = Iomode::BOTH.iter().all(|&iomode| list_is_sound(table, iomode));
    if store.len() == STORE_LENGTH && lists_are_sound && slots_are_sound(table, store) {
        Ok(())
    } else {
        Err(Refusal::Unsound)
    }
}

fn list_is_sound(table: &Table, iomode: Iomode) -> bool {
    let segments = table.segments(iomode);
    segments.iter().all(segment_is_sound)
        && segments.windows(2).all(|pair| neighbours_are_sound(&pair[0], &pair[1]))
        && table.entries(iomode)[segments.len()..].iter().all(Segment::is_blank)
}

fn segment_is_sound(segment: &Segment) -> bool {
    let names_a_slot = segment.right.slot().is_some_and(|slot| (slot as usize) < SLOT_COUNT);
    segment.first <= segment.last && names_a_slot
}

/// "Segments stand in rising order", and neighbours that touch differ.
fn neighbours_are_sound(before: &Segment, behind: &Segment) -> bool {
    before.last < behind.first && !(before.touches(behind) && before.right == behind.right)
}

fn slots_are_sound(table: &Table, store: &[u8]) -> bool {
    let mut bodies = Vec::new();
    for (slot, named) in slots(store).zip(table.named_slots()) {
        if named {
            match body_in(slot) {
                Some(body) if read_layout_body(body).is_ok() && !bodies.contains(&body) => {
                    bodies.push(body);
                }
                _ => return false,
            }
        } else if !is_zero(slot) {
            return false;
        }
    }
    true
}

#[cfg(test)]
mod tests {
    use super::*;
    use crate::range::LAST_BYTE;
    use crate::samples::events::{grant, recall, small_body};
    use crate::segments::Right::{self, Granted, Recalled};
    use crate::state::State;
    use crate::store::SLOT_LENGTH;

    /// RW 0..9 granted, 10..19 recalled, 20..99 granted in slot 0, and 200 to
    /// the last byte in slot 1; the two bodies differ in their hints only.
    fn sound_state() -> State {
        let one = small_body(2);
        let mut other = one.clone();
        *other.last_mut().unwrap() ^= 1;
        let mut state = State::default();
        let events = [grant(2, 0, 99, &one), recall(2, 10, 19), grant(2, 200, LAST_BYTE, &other)];
        for event in events {
            assert_eq!(state.apply(&event), Ok(()));
        }
        state
    }

    fn with_place(place: usize, first: u64, last: u64, right: Right) -> bool {
        let mut state = sound_state();
        state.set_segment(Iomode::ReadWrite, place, Segment { first, last, right });
        state.is_sound()
    }

    fn with_byte(place: usize, value: u8) -> bool {
        let mut state = sound_state();
        state.set_byte(place, value);
        state.is_sound()
    }

    #[test]
    fn segments_rise_and_name_slots() {
        assert!(sound_state().is_sound());
        assert!(with_place(1, 10, 19, Recalled(1)));
        assert!(with_place(1, 11, 18, Granted(0)));
        assert!(with_place(1, 15, 15, Granted(0)));
        // First after last, over a neighbour, no right, no slot of that number.
        assert!(!with_place(1, 15, 14, Recalled(0)));
        assert!(!with_place(1, 9, 19, Recalled(0)));
        assert!(!with_place(1, 10, 20, Recalled(0)));
        assert!(!with_place(1, 10, 19, Right::None));
        assert!(!with_place(1, 10, 19, Recalled(8)));
        assert!(!with_place(1, 10, 19, Recalled(u32::MAX)));
        // Touching with the same right, on either side.
        assert!(!with_place(1, 10, 18, Granted(0)));
        assert!(!with_place(1, 11, 19, Granted(0)));
        // Byte 0 is not after the last byte.
        assert!(!with_place(4, 0, 0, Granted(0)));
    }

    #[test]
    fn blank_places_are_blank() {
        assert!(with_place(4, 0, 0, Right::None));
        assert!(!with_place(4, 0, 1, Right::None));
        assert!(!with_place(1, 0, 0, Right::None));
        assert!(!with_place(5, 300, 300, Granted(0)));
        assert!(!with_place(31, 0, 0, Recalled(0)));
    }

    #[test]
    fn named_slots_hold_bodies() {
        let length = small_body(2).len();
        let behind = 6 + length;
        assert!(!with_byte(0, length as u8 + 4));
        assert!(!with_byte(0, length as u8 - 4));
        assert!(!with_byte(3, 1));
        assert!(!with_byte(4, 5));
        assert!(!with_byte(5, 4));
        // The mirror count; an unknown flag bit; the zeros after the body.
        assert!(!with_byte(6 + 11, 2));
        assert!(!with_byte(behind - 5, 16));
        assert!(!with_byte(behind, 1) && !with_byte(4_095, 1));
        // The efficiency may be any number.
        assert!(with_byte(6 + 16 + 19, 77));
        // The hint makes both bodies alike, or keeps them apart.
        let hint = SLOT_LENGTH + behind - 1;
        assert!(!with_byte(hint, 2) && with_byte(hint, 9));
    }

    #[test]
    fn other_slots_are_zero() {
        for slot in 2..8 {
            let start = slot * SLOT_LENGTH;
            assert!(with_byte(start, 0));
            for inside in [0, 4, 6, 2_000, 4_095] {
                assert!(!with_byte(start + inside, 1));
            }
        }
        // Slot 1 is named no longer, but holds a body; slot 2 holds none.
        assert!(!with_place(3, 200, 300, Granted(0)));
        assert!(!with_place(0, 0, 9, Granted(2)));
    }

    #[test]
    fn the_store_has_its_length() {
        for length in [0, 1, 4_096, 32_767] {
            let mut state = sound_state();
            state.set_borrowed(length);
            assert!(!state.is_sound());
        }
        let longer = [&sound_state().store[..], &[0]].concat();
        assert_eq!(check_sound(&sound_state().table, &longer), Err(Refusal::Unsound));
    }
}
