//! Random events that build a table up, and requests for I/O between them. The
//! source follows the table that its events make, so that it can aim at the ends
//! of segments.

use super::aimed_requests::{aimed_requests, reads_in_both};
use super::corruptions::corruption_and_repair;
use super::layout4s::EDGES;
use super::striped_bodies::striped_body;
use independent::cases::CaseFileWriter;
use independent::event::{Event, RangeNumbers};
use independent::iomode::{Iomode, IOMODE_ANY};
use independent::range::{ByteRange, LAST_BYTE};
use independent::samples::bodies::Layout4Head;
use independent::samples::events::{grant, length_between, small_body};
use independent::samples::random::Random;
use independent::segments::Segment;
use independent::state::State;
use independent::store::{body_in, slots};
use independent::table_cases::TableCase;
use independent::table_lines::table_case_line;

/// How many random cases of the table the stored file has.
const STORED_CASES: usize = 2_000;
/// The most requests for I/O that follow each other.
const MOST_REQUESTS: usize = 6;
/// The most grants over segments of the other iomode that follow each other.
const MOST_GRANTS_OVER: usize = 3;
/// A reset, the grants and the requests.
pub const MOST_IN_BOTH: usize = 1 + MOST_GRANTS_OVER + MOST_REQUESTS;

pub fn add(cases: &mut CaseFileWriter) {
    let mut random = Random::new(72);
    let mut source = EventSource::new(&mut random);
    for case in source.burst(&mut random, STORED_CASES) {
        cases.table(&case);
    }
}

/// What the events of a stretch have in common.
#[derive(Clone, Copy, Debug)]
struct Manner {
    /// How many bodies are granted: few make merges, many meet 24.
    bodies: usize,
    /// The first of them, and what they are made by.
    first_body: u32,
    body_of: fn(u32) -> Vec<u8>,
    /// Ranges start at multiples of this, counted from the origin.
    step: u64,
    origin: u64,
    /// How many such starts there are.
    starts: usize,
    /// Of ten events, so many are grants.
    grants_in_ten: usize,
    /// Once in so many events, much of the file is met: seldom, and the table
    /// grows to its limits.
    wide_once_in: usize,
}

impl Manner {
    fn any(random: &mut Random) -> Self {
        let starts = random.pick(&[6, 12, 40, 90]);
        let step = random.pick(&[1, 4, 10, 4_096, 1 << 32]);
        let span = step * starts as u64;
        Manner {
            bodies: random.pick(&[1, 2, 3, 7, 9, 12]),
            first_body: random.below(40) as u32,
            body_of: random.pick(&[small_body as fn(u32) -> Vec<u8>, striped_body]),
            step,
            origin: random.pick(&[0, 0, 1_000, (1 << 63) - span / 2, LAST_BYTE - span]),
            starts,
            grants_in_ten: random.pick(&[3, 5, 7, 8]),
            wide_once_in: random.pick(&[15, 60, 1_000, 1_000]),
        }
    }
}

/// A source of events, and the state that they have led to.
#[derive(Clone, Debug)]
pub struct EventSource {
    state: State,
    manner: Manner,
}

impl EventSource {
    pub fn new(random: &mut Random) -> Self {
        EventSource { state: State::default(), manner: Manner::any(random) }
    }

    /// Puts cases that were made elsewhere to this source's state.
    pub fn follow(&mut self, cases: &[TableCase]) {
        for case in cases {
            table_case_line(&mut self.state, case);
        }
    }

    /// Exactly `count` cases that follow each other; a burst starts in what the
    /// last one left.
    pub fn burst(&mut self, random: &mut Random, count: usize) -> Vec<TableCase> {
        let mut cases = Vec::new();
        while cases.len() < count {
            for case in self.next_cases(random) {
                table_case_line(&mut self.state, &case);
                cases.push(case);
                if cases.len() == count {
                    break;
                }
            }
        }
        cases
    }

    /// Grants over segments of the other iomode, and reads of bytes that are
    /// then held in both; at most [`MOST_IN_BOTH`] cases.
    pub fn both_iomodes(&mut self, random: &mut Random) -> Vec<TableCase> {
        let mut cases = Vec::new();
        if !self.state.is_sound() {
            self.state = State::default();
            cases.push(TableCase::Reset);
        }
        for _ in 0..random.between(1, MOST_GRANTS_OVER) {
            let event = self.grant_over(random);
            // A refused one leaves the state as it is.
            let _ = self.state.apply(&event);
            cases.push(TableCase::Event(event));
        }
        cases.extend(reads_in_both(random, &self.state, MOST_REQUESTS));
        cases
    }

    /// The next event, and the table and the store it leaves; or some requests
    /// for I/O; or corruptions with the calls that find them.
    fn next_cases(&mut self, random: &mut Random) -> Vec<TableCase> {
        if !self.state.is_sound() {
            return vec![TableCase::Reset];
        }
        if random.once_in(40) {
            let mut calls = aimed_requests(random, &self.state, MOST_REQUESTS / 2);
            for _ in 0..random.between(1, 5) {
                calls.push(TableCase::Event(self.event(random)));
            }
            return corruption_and_repair(random, &self.state, calls);
        }
        if random.once_in(6) {
            return aimed_requests(random, &self.state, MOST_REQUESTS);
        }
        if random.once_in(1_000) {
            return vec![TableCase::Reset];
        }
        let mut cases = vec![TableCase::Event(self.event(random))];
        if random.once_in(6) {
            cases.push(TableCase::ShowTable);
        }
        if random.once_in(6) {
            cases.push(TableCase::ShowStore);
        }
        cases
    }

    /// An event that was put to the source's own table, with its answer.
    pub fn next_event(&mut self, random: &mut Random) -> Event {
        let event = self.event(random);
        // A refused one leaves the state; its answer is for others to judge.
        let _ = self.state.apply(&event);
        event
    }

    fn event(&mut self, random: &mut Random) -> Event {
        if random.once_in(120) {
            self.manner = Manner::any(random);
        }
        if random.once_in(4 * self.manner.wide_once_in) {
            return Event::Revoke;
        }
        if random.below(10) < self.manner.grants_in_ten {
            return self.grant(random);
        }
        let numbers = self.numbers(random);
        if random.once_in(2) {
            Event::Return(numbers)
        } else {
            Event::Recall(numbers)
        }
    }

    fn grant(&self, random: &mut Random) -> Event {
        let iomode = random.pick(&Iomode::BOTH);
        let (first, last) = if random.once_in(2) { self.range(random) } else { self.free_on_grid(random, iomode) };
        let mut head =
            Layout4Head { offset: first, length: length_between(first, last), iomode: iomode.number(), layout_type: 4 };
        if random.once_in(50) {
            head.iomode = random.pick(&[0, 3, 4]);
        }
        if random.once_in(50) {
            head.length = random.pick(&EDGES);
        }
        let bytes = head.around(&self.body(random));
        Event::Grant(if random.once_in(30) { random.one_byte_changed(&bytes) } else { bytes })
    }

    /// A grant at, beside or inside a segment of the other iomode; where there
    /// is no segment yet, one to be met.
    fn grant_over(&self, random: &mut Random) -> Event {
        let iomode = random.pick(&Iomode::BOTH);
        let segments = self.state.table.segments(iomode);
        if segments.is_empty() {
            let (first, last) = self.on_grid(random);
            return grant(iomode.number(), first, last, &self.body(random));
        }
        let segment = random.pick(segments);
        let (one, end) = beside_or_inside(random, &segment);
        let body = self.body_beside(random, &segment);
        grant(IOMODE_ANY - iomode.number(), one.min(end), one.max(end), &body)
    }

    /// The body that a segment names, the same but for flag 4, or any.
    fn body_beside(&self, random: &mut Random, segment: &Segment) -> Vec<u8> {
        let slot = segment.right.slot().and_then(|slot| slots(&self.state.store).nth(slot as usize));
        let body = slot.and_then(body_in).map_or_else(Vec::new, <[u8]>::to_vec);
        match random.below(3) {
            0 => body,
            1 => with_flag_4_turned(body),
            _ => self.body(random),
        }
    }

    /// One of the bodies that are granted.
    fn body(&self, random: &mut Random) -> Vec<u8> {
        (self.manner.body_of)(self.manner.first_body + random.below(self.manner.bodies) as u32)
    }

    fn numbers(&self, random: &mut Random) -> RangeNumbers {
        let (first, last) = self.range(random);
        let mut numbers = RangeNumbers {
            offset: first,
            length: length_between(first, last),
            iomode: random.pick(&[1, 1, 2, 2, IOMODE_ANY]),
        };
        if random.once_in(50) {
            numbers.iomode = random.pick(&[0, 4, 5, 256 + 1, u32::MAX]);
        }
        if random.once_in(50) {
            numbers.length = random.pick(&EDGES);
        }
        numbers
    }

    /// A range on the grid, at a segment's ends, or to the end of the file.
    fn range(&self, random: &mut Random) -> (u64, u64) {
        if random.once_in(2 * self.manner.wide_once_in) {
            return (0, LAST_BYTE);
        }
        let (first, last) = match (random.below(2), self.some_segment(random)) {
            (0, Some(segment)) => beside_or_inside(random, &segment),
            _ => self.on_grid(random),
        };
        let last = if random.once_in(self.manner.wide_once_in) { LAST_BYTE } else { last };
        (first.min(last), first.max(last))
    }

    fn on_grid(&self, random: &mut Random) -> (u64, u64) {
        let Manner { step, origin, starts, .. } = self.manner;
        let first = origin + step * random.below(starts) as u64;
        let length = match random.below(4) {
            0 => step * random.between(1, 3) as u64,
            1 => step.div_ceil(2),
            _ => step,
        };
        (first, first.saturating_add(length - 1))
    }

    /// A range on the grid, mostly one that holds no byte, so that the table
    /// grows.
    fn free_on_grid(&self, random: &mut Random, iomode: Iomode) -> (u64, u64) {
        let segments = self.state.table.segments(iomode);
        let is_free =
            |&(first, last): &(u64, u64)| !segments.iter().any(|segment| segment.meets(ByteRange { first, last }));
        let tries: Vec<(u64, u64)> = (0..8).map(|_| self.on_grid(random)).collect();
        tries.iter().copied().find(is_free).unwrap_or(tries[0])
    }

    fn some_segment(&self, random: &mut Random) -> Option<Segment> {
        let segments = self.state.table.segments(random.pick(&Iomode::BOTH));
        (!segments.is_empty()).then(|| random.pick(segments))
    }
}

/// A body ends with flags and hint, of four bytes each.
fn with_flag_4_turned(mut body: Vec<u8>) -> Vec<u8> {
    if let Some(flags) = body.iter_mut().nth_back(4) {
        *flags ^= 4;
    }
    body
}

/// Two bytes at or beside the ends of a segment, or inside it.
fn beside_or_inside(random: &mut Random, segment: &Segment) -> (u64, u64) {
    let Segment { first, last, .. } = *segment;
    let middle = first + (last - first) / 2;
    let bytes = [
        first.saturating_sub(1),
        first,
        first.saturating_add(1).min(last),
        middle,
        last.saturating_sub(1).max(first),
        last,
        last.saturating_add(1),
    ];
    (random.pick(&bytes), random.pick(&bytes))
}

#[cfg(test)]
mod tests {
    use super::*;

    #[test]
    fn bursts_have_their_length_and_go_on_in_one_state() {
        let mut random = Random::new(3);
        let mut source = EventSource::new(&mut random);
        let mut state = State::default();
        for count in [1, 0, 7, 400, 60] {
            let cases = source.burst(&mut random, count);
            assert_eq!(cases.len(), count);
            for case in &cases {
                table_case_line(&mut state, case);
            }
            assert_eq!(state, source.state);
        }
    }

    #[test]
    fn both_iomodes_go_on_in_that_state() {
        let mut random = Random::new(4);
        let mut source = EventSource::new(&mut random);
        let mut state = State::default();
        for count in [0, 1, 30, 0, 60, 200, 0, 0] {
            let mut cases = source.burst(&mut random, count);
            let in_both = source.both_iomodes(&mut random);
            assert!((1..=MOST_IN_BOTH).contains(&in_both.len()));
            cases.extend(in_both);
            for case in &cases {
                table_case_line(&mut state, case);
            }
            assert_eq!(state, source.state);
        }
    }
}
