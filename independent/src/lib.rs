//! An independent implementation of a pNFS flexible file client core, from the
//! wire to where an I/O goes: the other side of a differential test.
//!
//! It is written from the scope paper ("01" in the comments), the change
//! requests ("C-11" to "C-13") and RFC 8435, never from the sources under
//! `crates/`. Where both sides print the same line for a case, two readings of
//! the papers agree.
//!
//! Words of 01 are used in quotes of it only. Its "spoken versions" are
//! [`binding::SupportedVersions`], its "shelf" is the [`store`], its "ledger"
//! the reference [`model`], its "pencil list" the worked examples, and what it
//! calls "lent" is a borrowed slice.

pub mod answers;
pub mod binding;
pub mod cases;
pub mod cell_model;
pub mod device;
pub mod event;
pub mod events;
pub mod fields;
pub mod io_request;
pub mod iomode;
pub mod layout;
pub mod layout4;
pub mod locate;
pub mod model;
pub mod model_slots;
pub mod range;
pub mod refusal;
pub mod report;
pub mod report_lines;
pub mod samples;
pub mod segments;
pub mod soundness;
pub mod state;
pub mod statistic_records;
pub mod statistics;
pub mod store;
pub mod table;
pub mod table_cases;
pub mod table_lines;
pub mod xdr;
