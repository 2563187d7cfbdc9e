//! The lines of the cases that concern the table and its store.

use crate::event::Event;
use crate::io_request::IoRequest;
use crate::iomode::Iomode;
use crate::locate::Location;
use crate::segments::{Right, Segment};
use crate::state::State;
use crate::store::{slots, stated_length};
use crate::table::Table;
use crate::table_cases::TableCase;

/// The checksum's factor and modulus: "(C * 257 + byte) mod 4,294,967,291"
const CHECKSUM_FACTOR: u64 = 257;
const CHECKSUM_MODULUS: u64 = 4_294_967_291;

/// Puts a case to the program's state and gives its line.
pub fn table_case_line(state: &mut State, case: &TableCase) -> String {
    match case {
        TableCase::Event(event) => event_line(state, event),
        TableCase::Locate(request) => location_line(state, request),
        TableCase::ShowTable => table_line(&state.table),
        TableCase::ShowStore => store_line(&state.store),
        TableCase::SetByte { offset, value } => {
            state.set_byte(*offset, *value);
            "set-byte done".to_string()
        }
        TableCase::SetSegment { iomode, index, segment } => {
            state.set_segment(*iomode, *index, *segment);
            "set-segment done".to_string()
        }
        TableCase::Reset => {
            *state = State::default();
            "reset done".to_string()
        }
        TableCase::SetBorrowed(length) => {
            state.set_borrowed(*length);
            "lend done".to_string()
        }
    }
}

fn event_line(state: &mut State, event: &Event) -> String {
    match state.apply(event) {
        Ok(()) => format!("{} accepted", event.name()),
        Err(refusal) => format!("{} refused {}", event.name(), refusal.number()),
    }
}

fn location_line(state: &State, request: &IoRequest) -> String {
    let name = request.direction.name();
    match state.locate(request) {
        Ok(location) => format!("{name} {}", location_text(&location)),
        Err(refusal) => format!("{name} refused {}", refusal.number()),
    }
}

/// "B is the set of mirrors as a number, bit 0 being mirror 0"
fn location_text(location: &Location) -> String {
    let Location { iomode, slot, stripe, offset, length, mirrors } = location;
    let place = format!("iomode={} slot={slot} stripe={stripe}", iomode.number());
    format!("{place} offset={offset} length={length} mirrors={mirrors}")
}

fn table_line(table: &Table) -> String {
    let list = |iomode| table.segments(iomode).iter().map(segment_text).collect::<Vec<_>>().join(",");
    format!("table read={} rw={}", list(Iomode::Read), list(Iomode::ReadWrite))
}

/// "a place there whose right is none prints `n` and no number"
fn segment_text(segment: &Segment) -> String {
    let Segment { first, last, right } = segment;
    match right {
        Right::None => format!("{first}-{last}:n"),
        Right::Granted(slot) => format!("{first}-{last}:g{slot}"),
        Right::Recalled(slot) => format!("{first}-{last}:r{slot}"),
    }
}

/// "the whole 32,768 bytes, whatever is lent"
fn store_line(store: &[u8]) -> String {
    let slot_text = |slot: &[u8]| format!(" {}:{}", stated_length(slot), checksum(slot));
    let texts: String = slots(store).map(slot_text).collect();
    format!("shelf{texts}")
}

fn checksum(bytes: &[u8]) -> u64 {
    bytes.iter().fold(0, |sum, &byte| (sum * CHECKSUM_FACTOR + u64::from(byte)) % CHECKSUM_MODULUS)
}

#[cfg(test)]
mod tests {
    use super::*;
    use crate::event::RangeNumbers;
    use crate::samples::bodies::{Layout4Head, LayoutPlan};

    fn set_segment(index: usize, first: u64, last: u64, right: Right) -> TableCase {
        let segment = Segment { first, last, right };
        TableCase::SetSegment { iomode: Iomode::Read, index, segment }
    }

    #[test]
    fn checksums() {
        assert_eq!(checksum(&[]), 0);
        assert_eq!(checksum(&[1, 2, 3]), (257 + 2) * 257 + 3);
        // 257^4 is 4,362,470,401.
        assert_eq!(checksum(&[1, 0, 0, 0, 0]), 4_362_470_401 - CHECKSUM_MODULUS);
    }

    #[test]
    fn event_lines() {
        let mut state = State::default();
        let mut line = |event| table_case_line(&mut state, &TableCase::Event(event));
        let body = LayoutPlan::plain(1, 1).encode().bytes;
        let numbers = RangeNumbers { offset: 0, length: u64::MAX, iomode: 2 };
        assert_eq!(line(Event::Recall(numbers)), "recall refused 25");
        assert_eq!(line(Event::Grant(Vec::new())), "grant refused 1");
        assert_eq!(line(Event::Grant(Layout4Head::whole_file().around(&body))), "grant accepted");
        assert_eq!(line(Event::Recall(numbers)), "recall accepted");
        assert_eq!(line(Event::Return(numbers)), "return accepted");
        assert_eq!(line(Event::Revoke), "revoke accepted");
        let bad = RangeNumbers { offset: 0, length: 0, iomode: 9 };
        assert_eq!(line(Event::Return(bad)), "return refused 5");
    }

    #[test]
    fn location_lines() {
        let mut state = State::default();
        let mut line = |case: TableCase| table_case_line(&mut state, &case);
        let body = LayoutPlan::plain(2, 3).encode().bytes;
        let read = TableCase::Locate(IoRequest::read(5_000, 9_000));
        let write = TableCase::Locate(IoRequest::write(5_000, 9_000));
        assert_eq!(line(read.clone()), "read-at refused 17");
        assert_eq!(line(write.clone()), "write-at refused 17");
        line(TableCase::Event(Event::Grant(Layout4Head::whole_file().around(&body))));
        let start = "iomode=2 slot=0 stripe=1 offset=5000 length=3192 mirrors";
        assert_eq!(line(read.clone()), format!("read-at {start}=2"));
        assert_eq!(line(write.clone()), format!("write-at {start}=3"));
        let nothing = TableCase::Locate(IoRequest::read(0, 0));
        assert_eq!(line(nothing.clone()), "read-at refused 5");
        // Of the store, one byte less than all is borrowed.
        line(TableCase::SetBorrowed(32_767));
        for (case, expected) in [(read, "read-at"), (nothing, "read-at"), (write, "write-at")] {
            assert_eq!(line(case), format!("{expected} refused 20"));
        }
    }

    #[test]
    fn table_lines() {
        let mut state = State::default();
        let mut line = |case: TableCase| table_case_line(&mut state, &case);
        assert_eq!(line(TableCase::ShowTable), "table read= rw=");
        assert_eq!(line(set_segment(0, 5, 9, Right::Granted(200))), "set-segment done");
        line(set_segment(1, 7, 3, Right::None));
        line(set_segment(2, 0, 0, Right::Recalled(0)));
        line(set_segment(4, 1, 1, Right::Granted(1)));
        assert_eq!(line(TableCase::ShowTable), "table read=5-9:g200,7-3:n,0-0:r0 rw=");
        // The blank entry hides what follows it.
        line(set_segment(3, 0, 0, Right::None));
        assert_eq!(line(TableCase::ShowTable), "table read=5-9:g200,7-3:n,0-0:r0 rw=");
        line(set_segment(0, 0, 0, Right::None));
        assert_eq!(line(TableCase::ShowTable), "table read= rw=");
        assert_eq!(line(TableCase::Event(Event::Revoke)), "revoke refused 20");
        assert_eq!(line(TableCase::Reset), "reset done");
        assert_eq!(line(TableCase::Event(Event::Revoke)), "revoke accepted");
    }

    #[test]
    fn store_lines() {
        let mut state = State::default();
        let mut line = |case: TableCase| table_case_line(&mut state, &case);
        assert_eq!(line(TableCase::ShowStore), "shelf 0:0 0:0 0:0 0:0 0:0 0:0 0:0 0:0");
        assert_eq!(line(TableCase::SetByte { offset: 8_191, value: 9 }), "set-byte done");
        assert_eq!(line(TableCase::SetBorrowed(5)), "lend done");
        assert_eq!(line(TableCase::ShowStore), "shelf 0:0 0:9 0:0 0:0 0:0 0:0 0:0 0:0");
        assert_eq!(line(TableCase::Event(Event::Revoke)), "revoke refused 20");
        line(TableCase::SetByte { offset: 8_191, value: 0 });
        assert_eq!(line(TableCase::Event(Event::Revoke)), "revoke refused 20");
        line(TableCase::SetBorrowed(32_768));
        assert_eq!(line(TableCase::Event(Event::Revoke)), "revoke accepted");
        line(TableCase::SetByte { offset: 28_673, value: 2 });
        assert!(line(TableCase::ShowStore).contains(" 512:"));
    }
}
