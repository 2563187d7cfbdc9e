//! What the integration tests share.

pub mod json;
