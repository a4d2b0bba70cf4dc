//! Reefmitten: is the record of an execution a valid execution of x86-CC, and if not, which rule is
//! broken first, and by what evidence?
//!
//! The judge itself is written and proved in Rattle and comes as an archive, `libreefmitten.a`.
//! This package is a face of it with Rust's types: it judges nothing on its own. Every function
//! takes any bytes and any buffers; nothing is expected of the caller beforehand. Nothing
//! allocates, and there is no state.
//!
//! | Operation | What it says |
//! |--|--|
//! | [`check`] | is the record a valid execution |
//! | [`replay`] | does the list of events, performed one by one, give the values that were read |
//! | [`read_off`] | the record whose witness follows a list |
//! | [`order_table`] | which event happens directly before which |
//! | [`view`] | in what order a processor saw the events |
//! | [`entries`] | the record entry by entry |
//!
//! ```
//! use reefmitten::{check, Evidence};
//!
//! let record = std::fs::read("../records/s2.bin").unwrap();
//! let mut evidence = Evidence::new();
//! let refusal = check(&record, &mut evidence).unwrap_err();
//! assert_eq!(refusal.rule().number(), 24);
//! assert_eq!(
//!     refusal.to_string(),
//!     "the view of processor 1 and happens-before together go in a circle: \
//!      event 0 before 2 before 0"
//! );
//! ```
#![no_std]
#![deny(missing_docs)]
#![deny(unsafe_code)]

mod contract;
mod evidence;
#[allow(unsafe_code)]
mod ffi;
mod operations;
pub mod raw;
mod reader;
mod refusal;
mod rule;
mod words;

pub use evidence::Evidence;
pub use operations::{check, order_table, read_off, replay, view};
pub use reader::{entries, Entries, Entry};
pub use refusal::{NotInitial, Refusal};
pub use rule::{NotARule, Rule};

/// Entries that an evidence buffer needs.
pub const EVIDENCE_ENTRIES: usize = 65;
/// Bytes that the buffer of a read-off needs: the length of the longest record.
pub const LONGEST_RECORD: usize = 2346;
/// Words that an order table needs at most: one for each event.
pub const MOST_EVENTS: usize = 64;
