//! Safe bindings to the proved M.Av. library: flows of 120-byte records, of new requests or of recalls, are
//! read, searched, written from a request list, read back to one, amended, and compared.
//!
//! A flow and a list are the caller's bytes. Every call takes them at any length and with any contents and
//! asks nothing of them first. It works in place, keeps nothing between calls, and gives either what it
//! was asked for or a [`Refusal`]: one number of the documents, one record and one position. A refused call
//! leaves every byte as it was.
//!
//! | call | what it does |
//! |---|---|
//! | [`read`] | judges a flow and gives its dispositions, cents, records and kind |
//! | [`find`] | says where a disposition stands, and gives its part of the flow |
//! | [`dispositions`] | judges a flow once and gives all its dispositions, one after the other |
//! | [`write`](fn@write), [`write_to_vec`] | writes the flow that a request list encodes |
//! | [`read_back`], [`read_back_to_vec`] | writes the request list of a flow |
//! | [`change`] | gives a disposition another amount |
//! | [`withdraw`] | takes a disposition out and shortens the flow |
//! | [`withdraw_in_place`] | the same on a slice: it gives the new length, and leaves blanks after it |
//! | [`compare`] | writes the shortest account of what differs between two flows |
//! | [`compare_line`] | says what a line of that account is, and gives its record 14 |
//! | [`digits`], [`amount`], [`date`] | the field rules, without any flow |
//! | [`items`], [`ItemKind`] | the items of a request list, for showing them; plain Rust |
//!
//! What the calls of the archive answer and leave is proved; [`raw`] hands them slices, and the other
//! modules only give their answers Rust's types. Beside that, [`dispositions`] parts a flow in plain Rust,
//! once the library has accepted it. No input makes a call panic. The one thing that would is an archive
//! other than the one that these bindings were written for: an answer that the contracts rule out ends in
//! a panic that says so, and is never shown as another answer.
//!
//! ```
//! let mut flow = include_bytes!(concat!(env!("CARGO_MANIFEST_DIR"), "/../../samples/two-rents.flow")).to_vec();
//!
//! let accepted = mav::read(&flow)?;
//! assert_eq!(accepted.to_string(), "accepted dispositions 2 cents 83050 records 16 kind requests");
//!
//! mav::change(&mut flow, 2, 40_000)?;
//! mav::withdraw(&mut flow, 1)?;
//! assert_eq!(mav::read(&flow)?.to_string(), "accepted dispositions 1 cents 40000 records 9 kind requests");
//!
//! let refusal = mav::withdraw(&mut flow, 1).unwrap_err();
//! assert_eq!(refusal.reason, mav::Reason::OnlyDisposition);
//! # Ok::<(), mav::Refusal>(())
//! ```

#![deny(unsafe_code)]
#![warn(missing_docs)]

#[cfg(not(all(target_arch = "x86_64", target_os = "linux")))]
compile_error!("the proved library is compiled for x86-64 Linux");

mod amend;
mod answer;
mod evenings;
mod fields;
mod flow;
mod item;
mod kind;
mod limits;
mod list;
mod parts;
#[allow(unsafe_code)]
pub mod raw;
mod reason;

pub use amend::{change, withdraw, withdraw_in_place, Withdrawn};
pub use answer::{Accepted, Refusal};
pub use evenings::{compare, compare_line, AccountLine, Compared, Letter};
pub use fields::{amount, date, digits, FieldRefusal};
pub use flow::{find, read, Disposition};
pub use item::{items, ItemKind};
pub use kind::FlowKind;
pub use limits::{
    AMOUNT_LENGTH, DATE_LENGTH, MAX_ACCOUNT_LENGTH, MAX_AMOUNT, MAX_COMPARED, MAX_DIGITS,
    MAX_FLOW_LENGTH, MAX_ITEM_LENGTH, MAX_RECORDS, MAX_TOTAL, MIN_WORK, RECORD_LENGTH,
};
pub use list::{flow_room, list_room, read_back, read_back_to_vec, write, write_to_vec, Written};
pub use parts::{dispositions, Dispositions};
pub use reason::Reason;

// What README shows in Rust is run as it stands there.
#[cfg(doctest)]
#[doc = include_str!("../../../README.md")]
struct Readme;
