//! The proved pNFS client core, with safe types: one [`Layouts`] for each file says where an I/O goes, [`Layout`] and
//! [`Device`] read what came in NFS messages, [`Layout::bind`] joins the two, and [`Report`]s and [`Statistic`]s are
//! read and written. [`raw`] has the exported functions as they are.

mod binding;
mod device;
mod layout;
mod layouts;
mod numbers;
pub mod raw;
mod refusal;
mod report;
mod statistics;

pub use binding::{Binding, Identity};
pub use device::{Address, Device, DeviceId, Netid, Version, Versions};
pub use layout::{Flags, Layout, Layout4};
pub use layouts::{Layouts, Piece};
pub use numbers::{Iomode, MirrorNumber, MirrorSet, SlotNumber, StripeNumber};
pub use refusal::Refusal;
pub use report::{read_error, read_reports, write_reports, IoError, Operation, Report, LONGEST_REPORT};
pub use statistics::{write_return, IoInfo, Latency, LayoutUpdate, Statistic, Statistics, LONGEST_RETURN};
