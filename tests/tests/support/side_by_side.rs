//! The table and the model, put the same events and held against each other
//! after each of them.

use independent::event::Event;
use independent::iomode::Iomode;
use independent::model::Model;
use independent::segments::Segment;
use independent::state::State;

#[derive(Clone, Default)]
pub struct SideBySide {
    pub state: State,
    pub model: Model,
}

impl SideBySide {
    /// Puts an event to both. Answers, entries and bytes agree, and a refused
    /// event changes nothing. Gives the answer's number, 0 for accepted.
    pub fn apply(&mut self, event: &Event) -> u8 {
        let before = self.state.clone();
        let answer = self.state.apply(event);
        assert_eq!(answer, self.model.apply(event), "answers to {event:?}");
        if answer.is_err() {
            assert!(self.state == before, "a refused event changed something: {event:?}");
        }
        for iomode in Iomode::BOTH {
            let mut expected = self.model.segments(iomode);
            expected.resize(32, Segment::default());
            assert_eq!(self.state.table.entries(iomode)[..], expected, "places after {event:?}");
        }
        assert!(self.state.store == self.model.slots().laid_out(), "store after {event:?}");
        answer.map_or_else(|refusal| refusal.number(), |()| 0)
    }
}
