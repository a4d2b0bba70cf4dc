//! The x86-CC execution check over lent buffers, written plainly and for speed.
//!
//! A set of events is one `u64`, bit e for event e; a relation is `[u64; 64]`,
//! row a holding every b that a is related to. Nothing here allocates: each
//! operation works on fixed arrays on its own stack.
//!
//! Layers, lowest first: `reading` (answers 2 to 5), `facts` (each event's facts
//! as sets), `structure` (10 to 14), `orders` and `cycle` (relations), `check`
//! (20 to 27), `replay` (28 to 33). For tools and tests alone: `marked`, `sample`,
//! `shapes`, `programs`, `runs`, `changes`, `vectors`.
#![forbid(unsafe_code)]

mod bits;
pub mod changes;
mod check;
mod cycle;
mod facts;
pub mod marked;
mod orders;
pub mod programs;
mod reading;
mod replay;
pub mod runs;
pub mod sample;
pub mod shapes;
mod structure;
pub mod vectors;

pub use check::{check, order_table};
pub use reading::{form, next_entry, view};
pub use replay::{read_off, replay};
pub use structure::structure;

/// Entries an evidence buffer must have (answer 1 below that).
pub const EVIDENCE_ENTRIES: usize = 65;
/// Bytes a read-off buffer must have, the length of the longest record.
pub const LONGEST_RECORD: usize = 2346;

/// A refusal by a rule: its answer and how many evidence entries were written.
type Refusal = (u16, usize);

/// Writes the evidence of a broken rule and names its answer.
#[cold]
fn refuse<const K: usize>(answer: u16, shown: [usize; K], evidence: &mut [u16]) -> Refusal {
    for (entry, number) in evidence.iter_mut().zip(shown) {
        *entry = number as u16;
    }
    (answer, K)
}

/// The answer and evidence count an operation hands back.
fn answer_of(judged: Result<(), Refusal>) -> (u16, usize) {
    match judged {
        Ok(()) => (0, 0),
        Err(refusal) => refusal,
    }
}
