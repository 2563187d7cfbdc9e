//! What the two models share: rights that name bodies, and the eight slots.

use crate::refusal::Refusal;
use crate::segments::Right;

/// A byte's right under a body, by the body's own bytes.
#[derive(Clone, Debug, Default, PartialEq, Eq)]
pub enum BodyRight {
    #[default]
    None,
    Granted(Vec<u8>),
    Recalled(Vec<u8>),
}

impl BodyRight {
    /// The body that the byte is held under.
    pub fn body(&self) -> Option<&Vec<u8>> {
        match self {
            BodyRight::None => None,
            BodyRight::Granted(body) | BodyRight::Recalled(body) => Some(body),
        }
    }

    pub fn is_held(&self) -> bool {
        self.body().is_some()
    }

    pub fn is_held_under_another(&self, body: &[u8]) -> bool {
        self.body().is_some_and(|held| held != body)
    }

    pub fn is_recalled(&self) -> bool {
        matches!(self, BodyRight::Recalled(_))
    }

    /// "A recall turns granted into recalled and nothing else."
    pub fn recall(&mut self) {
        if let BodyRight::Granted(body) = self {
            *self = BodyRight::Recalled(std::mem::take(body));
        }
    }
}

/// "eight slots, at first empty"
#[derive(Clone, Debug, Default, PartialEq, Eq)]
pub struct ModelSlots {
    bodies: [Option<Vec<u8>>; 8],
}

impl ModelSlots {
    /// "A granted body in no slot takes the lowest empty one", or 24 where
    /// there is none.
    pub fn store_body(&mut self, body: &[u8]) -> Result<(), Refusal> {
        if self.number_of(body).is_some() {
            return Ok(());
        }
        let empty = self.bodies.iter_mut().find(|slot| slot.is_none());
        *empty.ok_or(Refusal::NoSlotLeft)? = Some(body.to_vec());
        Ok(())
    }

    /// "a slot whose body no right names is emptied"
    pub fn empty_unless(&mut self, is_named: impl Fn(&[u8]) -> bool) {
        for slot in &mut self.bodies {
            if slot.as_deref().is_some_and(|body| !is_named(body)) {
                *slot = None;
            }
        }
    }

    /// The number of the slot that holds the body.
    pub fn number_of(&self, body: &[u8]) -> Option<u32> {
        let holds = |slot: &Option<Vec<u8>>| slot.as_deref() == Some(body);
        self.bodies.iter().position(holds).map(|number| number as u32)
    }

    /// The right as a table shows it, by the slot's number. A body in no slot
    /// gives no right, which no table shows.
    pub fn shown(&self, right: &BodyRight) -> Right {
        let number = right.body().and_then(|body| self.number_of(body));
        match (right, number) {
            (BodyRight::Granted(_), Some(slot)) => Right::Granted(slot),
            (BodyRight::Recalled(_), Some(slot)) => Right::Recalled(slot),
            _ => Right::None,
        }
    }

    pub fn filled(&self) -> usize {
        self.bodies.iter().flatten().count()
    }

    /// "Its shelf is its slots, laid out as above."
    pub fn laid_out(&self) -> Vec<u8> {
        let mut bytes = Vec::with_capacity(32_768);
        for (number, slot) in self.bodies.iter().enumerate() {
            if let Some(body) = slot {
                bytes.extend((body.len() as u32).to_le_bytes());
                bytes.extend([4, 0]);
                bytes.extend(body);
            }
            bytes.resize((number + 1) * 4_096, 0);
        }
        bytes
    }
}
