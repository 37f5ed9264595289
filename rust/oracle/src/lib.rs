//! M.Av. flows of 120-byte records, requests and recalls, by the rules of
//! document 01 and of requests E1, E4, E5 and E7 of document 02: the field
//! rules, the reader, where a disposition is, request lists, amount change and
//! withdrawal, the ledger that says what a list of calls leaves, and what
//! differs between two evenings. Beside them stand generated cases and sample
//! files.
//!
//! The rules of one flow read in place and do not allocate per record. No call
//! asks anything of its input first, or panics.

#![forbid(unsafe_code)]

pub mod amend;
pub mod amend_cases;
pub mod answer;
pub mod damage;
pub mod evenings;
pub mod evenings_cases;
pub mod fields;
pub mod find;
pub mod find_cases;
pub mod generate;
pub mod kind;
pub mod ledger;
pub mod list;
pub mod list_cases;
pub mod program;
pub mod reader;
pub mod reader_cases;
pub mod record;
pub mod rng;
pub mod samples;
pub mod shrink;
pub mod tally;
pub mod vectors;

pub use answer::{Answer, Refusal};
pub use kind::FlowKind;
