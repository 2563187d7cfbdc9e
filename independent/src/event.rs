//! The events that change a segment table, as their own bytes and numbers.

/// What a return or recall names; none of it is judged yet.
#[derive(Clone, Copy, Debug, PartialEq, Eq)]
pub struct RangeNumbers {
    pub offset: u64,
    pub length: u64,
    pub iomode: u32,
}

/// One event.
#[derive(Clone, Debug, PartialEq, Eq)]
pub enum Event {
    /// The bytes of a `layout4`.
    Grant(Vec<u8>),
    Return(RangeNumbers),
    Recall(RangeNumbers),
    Revoke,
}

impl Event {
    /// The event's name in a line of answers.
    pub fn name(&self) -> &'static str {
        match self {
            Event::Grant(_) => "grant",
            Event::Return(_) => "return",
            Event::Recall(_) => "recall",
            Event::Revoke => "revoke",
        }
    }
}
