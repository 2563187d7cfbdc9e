//! Random I/O requests, aimed at the ends of segments and of stripe units.

use super::layout4s::EDGES;
use independent::io_request::{Direction, IoRequest};
use independent::iomode::Iomode;
use independent::layout::read_layout_body;
use independent::samples::random::Random;
use independent::segments::Segment;
use independent::state::State;
use independent::store::{body_in, slots};
use independent::table_cases::TableCase;

/// Several requests, by the table as it is.
pub fn aimed_requests(random: &mut Random, state: &State, most: usize) -> Vec<TableCase> {
    let count = random.between(1, most);
    (0..count).map(|_| TableCase::Locate(aimed_request(random, state))).collect()
}

/// One request.
pub fn aimed_request(random: &mut Random, state: &State) -> IoRequest {
    let direction = random.pick(&Direction::BOTH);
    let segments = state.table.segments(random.pick(&Iomode::BOTH));
    if segments.is_empty() || random.once_in(10) {
        let edge = random.pick(&EDGES);
        return IoRequest { direction, offset: near(random, edge), length: random.pick(&EDGES) };
    }
    let segment = random.pick(segments);
    let unit = unit_of(state, &segment);
    let offset = aimed_offset(random, &segment, unit);
    IoRequest { direction, offset, length: aimed_length(random, &segment, unit, offset) }
}

/// Some reads of bytes that are held in both iomodes; none where there are no
/// such bytes.
pub fn reads_in_both(random: &mut Random, state: &State, most: usize) -> Vec<TableCase> {
    let [read, rw] = Iomode::BOTH.map(|iomode| state.table.segments(iomode));
    let pairs = read.iter().flat_map(|one| rw.iter().map(move |other| [*one, *other]));
    let meeting: Vec<_> = pairs.filter(|[one, other]| one.first <= other.last && other.first <= one.last).collect();
    let count = if meeting.is_empty() { 0 } else { random.between(1, most) };
    (0..count).map(|_| TableCase::Locate(read_in_both(random, &meeting))).collect()
}

/// A read from a byte of two segments to about the end of one of them; it may
/// be empty.
fn read_in_both(random: &mut Random, meeting: &[[Segment; 2]]) -> IoRequest {
    let [one, other] = random.pick(meeting);
    let (first, last) = (one.first.max(other.first), one.last.min(other.last));
    let offset = random.pick(&[first, first + (last - first) / 2, last]);
    let end = random.pick(&[one.last, other.last]);
    IoRequest::read(offset, (end - offset).saturating_add(random.between(0, 9) as u64))
}

/// The stripe unit of the body that a segment names, 0 with one server.
fn unit_of(state: &State, segment: &Segment) -> u64 {
    let slot = segment.right.slot().and_then(|slot| slots(&state.store).nth(slot as usize));
    let layout = slot.and_then(body_in).and_then(|body| read_layout_body(body).ok());
    layout.map_or(0, |layout| layout.unit)
}

/// Near an end of the segment or the start of a unit, or anywhere inside.
fn aimed_offset(random: &mut Random, segment: &Segment, unit: u64) -> u64 {
    let span = segment.last.saturating_sub(segment.first);
    let inside = segment.first + random.next_u64() % span.max(1);
    let unit_start = inside - inside.checked_rem(unit).unwrap_or(0);
    let aims = [segment.first, segment.last, inside, unit_start, unit_start];
    let aim = random.pick(&aims);
    near(random, aim)
}

/// Near the rest of the segment or of the unit, near the longest that is
/// allowed, or short.
fn aimed_length(random: &mut Random, segment: &Segment, unit: u64, offset: u64) -> u64 {
    let rest_of_segment = segment.last.saturating_sub(offset).saturating_add(1);
    let rest_of_unit = offset.checked_rem(unit).map_or(rest_of_segment, |into| unit - into);
    match random.below(9) {
        0 => random.pick(&EDGES),
        1 => near(random, u64::MAX - offset),
        2 => random.between(1, 9) as u64,
        3..=5 => near(random, rest_of_segment),
        _ => near(random, rest_of_unit),
    }
}

fn near(random: &mut Random, number: u64) -> u64 {
    random.pick(&[number.saturating_sub(1), number, number, number.saturating_add(1)])
}
