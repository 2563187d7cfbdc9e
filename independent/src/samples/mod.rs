//! Made-up input, which the unit tests here and the generator of case files
//! share: bodies, events, and random numbers.

pub mod bodies;
pub mod events;
pub mod random;
pub mod statistics;
pub mod wire;
