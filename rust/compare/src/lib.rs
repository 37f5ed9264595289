//! The proved library, called through its C interface, held against the
//! second program and its ledger.
//!
//! Every entry point is called on both sides with the same numbers and with
//! copies of the same memory. What is returned, all eight entries of the
//! answer, every byte lent and the bytes around it must be the same on both
//! sides afterwards. The first difference is made small and printed.

#![forbid(unsafe_code)]

pub mod calls;
pub mod cases;
pub mod entry;
pub mod evenings;
pub mod ledger;
pub mod lent;
pub mod minimal;
pub mod report;
pub mod rounds;
pub mod run;
pub mod sides;
pub mod tally;

pub use entry::Entry;
pub use run::{run, run_evenings};
pub use sides::Sides;
