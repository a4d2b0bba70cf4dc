//! The operations as the archive has them: slices of any length go in, numbers come back.
//!
//! For callers with buffers of their own, too short ones included. A function hands back the
//! answer first, 0 or the number of the first broken rule ([`Rule`](crate::Rule) names them), and
//! then what else it has to say. The typed operations at the top of this package stand on these.

pub use crate::ffi::{check, next, open, order_table, read_off, replay, view};
