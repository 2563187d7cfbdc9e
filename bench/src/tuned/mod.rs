//! The events, lookups, layout bodies and layout returns once more, written from the papers to be fast: over
//! references, without allocation, in plain safe Rust. Same checks, same order of refusals, same results as the core.

pub mod by_value;
pub mod bytes;
pub mod edits;
pub mod events;
pub mod layout;
pub mod layout4;
pub mod locate;
pub mod ranges;
pub mod return_writing;
pub mod returns;
pub mod soundness;
pub mod store;
pub mod table;
