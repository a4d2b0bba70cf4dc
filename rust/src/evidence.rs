//! The buffer for evidence.

use crate::EVIDENCE_ENTRIES;

/// A buffer that is long enough for any evidence, to be lent to [`check`](crate::check) and
/// [`replay`](crate::replay). What they refuse by may borrow from it; it can be lent again after.
///
/// ```
/// use reefmitten::{check, Evidence};
///
/// let mut evidence = Evidence::new();
/// for name in ["s1", "s2", "torn"] {
///     let record = std::fs::read(format!("../records/{name}.bin")).unwrap();
///     match check(&record, &mut evidence) {
///         Ok(()) => println!("{name} is valid"),
///         Err(refusal) => println!("{name}: {refusal}"),
///     }
/// }
/// ```
#[derive(Clone, Debug)]
pub struct Evidence {
    entries: [u16; EVIDENCE_ENTRIES],
}

impl Evidence {
    /// A buffer with nothing in it yet.
    #[must_use]
    pub const fn new() -> Evidence {
        Evidence { entries: [0; EVIDENCE_ENTRIES] }
    }

    /// The entries, to be lent to the archive.
    pub(crate) fn entries(&mut self) -> &mut [u16] {
        &mut self.entries
    }
}

impl Default for Evidence {
    fn default() -> Evidence {
        Evidence::new()
    }
}
