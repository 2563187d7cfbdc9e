//! Case files, which are put to the proved program and to the independent
//! implementation.

pub mod generate;
