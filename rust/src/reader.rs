//! The reader: the entries of a record one by one.

use crate::contract::{accepted, part};
use crate::{raw, Rule};
use core::iter::FusedIterator;

/// An entry of sections 2 to 9. A view with its count is one entry.
#[derive(Clone, Copy, Debug, PartialEq, Eq)]
pub struct Entry<'r> {
    /// The section, 2 to 9.
    pub section: u16,
    /// Where in the record the entry starts.
    pub place: usize,
    /// The entry, a part of the record.
    pub bytes: &'r [u8],
}

/// The entries of a record in their order; [`entries`] opens it.
#[derive(Clone, Debug)]
pub struct Entries<'r> {
    record: &'r [u8],
    at: usize,
}

/// Opens a reader over a record.
///
/// # Errors
///
/// The first broken rule of 2 to 5.
///
/// ```
/// use reefmitten::entries;
///
/// let record = std::fs::read("../records/s1.bin").unwrap();
/// for entry in entries(&record).unwrap().filter(|entry| entry.section == 9) {
///     println!("the view at byte {}: {:?}", entry.place, &entry.bytes[2..]);
/// }
/// assert_eq!(entries(&record).unwrap().count(), 4 + 2 + 2 + 2);
/// ```
pub fn entries(record: &[u8]) -> Result<Entries<'_>, Rule> {
    let (answer, bytes) = raw::open(record);
    accepted(answer)?;
    Ok(Entries { record: part(record, 0, bytes), at: 0 })
}

impl<'r> Iterator for Entries<'r> {
    type Item = Entry<'r>;

    fn next(&mut self) -> Option<Entry<'r>> {
        let (section, place, length) = raw::next(self.record, self.at);
        if section == 0 {
            return None;
        }
        let bytes = part(self.record, place, length);
        self.at = place + length;
        Some(Entry { section, place, bytes })
    }
}

// Behind the last entry the reader stays where it is, and there is still none.
impl FusedIterator for Entries<'_> {}
