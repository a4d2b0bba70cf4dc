//! The five operations with typed results.

use crate::contract::{accepted, decoded, part};
use crate::{raw, Evidence, Refusal, Rule};

/// The check: is the record a valid execution of x86-CC, and if not, which rule is broken first?
///
/// # Errors
///
/// The first broken rule, of 2 to 5, 10 to 14 and 20 to 27, with its evidence.
///
/// ```
/// use reefmitten::{check, Evidence, Refusal};
///
/// let mut evidence = Evidence::new();
/// let record = std::fs::read("../records/s1.bin").unwrap();
/// assert_eq!(check(&record, &mut evidence), Ok(()));
/// assert_eq!(check(&record[..50], &mut evidence), Err(Refusal::CutShort { section: 2 }));
/// ```
pub fn check<'e>(record: &[u8], evidence: &'e mut Evidence) -> Result<(), Refusal<'e>> {
    let (answer, written) = raw::check(record, evidence.entries());
    decoded(answer, evidence.entries(), written)
}

/// The replay: the record's events are performed one after the other in the order of the list.
/// Sections 6 to 9 of the record are read for form and then not used.
///
/// # Errors
///
/// The first broken rule, of 2 to 5, 10 to 14 and 28 to 33, with its evidence.
///
/// ```
/// use reefmitten::{replay, Evidence, Refusal};
///
/// let mut evidence = Evidence::new();
/// let record = std::fs::read("../records/s1.bin").unwrap();
/// assert_eq!(replay(&record, &[1, 3, 0, 2], &mut evidence), Ok(()));
/// let refused = replay(&record, &[0, 1, 2, 3], &mut evidence);
/// assert_eq!(refused, Err(Refusal::WrongValue { read: 3 }));
/// ```
pub fn replay<'e>(
    record: &[u8],
    list: &[u16],
    evidence: &'e mut Evidence,
) -> Result<(), Refusal<'e>> {
    let (answer, written) = raw::replay(record, list, evidence.entries());
    decoded(answer, evidence.entries(), written)
}

/// The read-off: writes the record whose witness follows the list, and gives the part of `out`
/// that it fills. `out` has to have [`LONGEST_RECORD`](crate::LONGEST_RECORD) bytes.
///
/// # Errors
///
/// The first broken rule, of 1 to 5, 10 to 14 and 28 to 31; `out` is then untouched. A list that
/// breaks 32 or 33 is written; the check refuses what was written.
///
/// ```
/// use reefmitten::{check, read_off, view, Evidence, LONGEST_RECORD};
///
/// let record = std::fs::read("../records/s1.bin").unwrap();
/// let mut out = [0; LONGEST_RECORD];
/// let written = read_off(&record, &[1, 3, 0, 2], &mut out).unwrap();
/// assert_eq!(check(written, &mut Evidence::new()), Ok(()));
/// assert_eq!(view(written, 0), Ok(&[1, 0, 2][..]));
/// ```
pub fn read_off<'o>(record: &[u8], list: &[u16], out: &'o mut [u8]) -> Result<&'o [u8], Rule> {
    let (answer, written) = raw::read_off(record, list, out);
    accepted(answer)?;
    Ok(part(out, 0, written))
}

/// The order table: a word for each event, and in word e bit k set exactly if e happens directly
/// before k. Gives the part of `table` that it fills; 64 words
/// ([`MOST_EVENTS`](crate::MOST_EVENTS)) are enough for every record.
///
/// # Errors
///
/// The first broken rule, of 2 to 5, then 1, then 10 to 14 and 20 to 23; `table` is then
/// untouched. A record that breaks only 24 to 27 has a table.
///
/// ```
/// use reefmitten::{order_table, MOST_EVENTS};
///
/// let record = std::fs::read("../records/s2.bin").unwrap();
/// let mut table = [0; MOST_EVENTS];
/// assert_eq!(order_table(&record, &mut table), Ok(&[0b0110, 0, 0b1000, 0][..]));
/// ```
pub fn order_table<'t>(record: &[u8], table: &'t mut [u64]) -> Result<&'t [u64], Rule> {
    accepted(raw::order_table(record, table))?;
    Ok(part(table, 0, events_of(record)))
}

/// The count of section 2. For a record that has the form, which starts with form and processors,
/// one byte each, and then this count.
fn events_of(record: &[u8]) -> usize {
    let count = part(record, 2, 2);
    usize::from(u16::from_le_bytes([count[0], count[1]]))
}

/// The view question: the events of a processor's view in their order, as the part of the record
/// that they are.
///
/// # Errors
///
/// The first broken rule of 2 to 5, or 4 for a processor that the record does not have.
///
/// ```
/// use reefmitten::{view, Rule};
///
/// let record = std::fs::read("../records/s1.bin").unwrap();
/// assert_eq!(view(&record, 1), Ok(&[2, 3, 0][..]));
/// assert_eq!(view(&record, 2), Err(Rule::FieldOutOfRange));
/// ```
pub fn view(record: &[u8], processor: u16) -> Result<&[u8], Rule> {
    // The archive takes a byte. No record has a processor 255, so all that are more answer alike.
    let byte = u8::try_from(processor).unwrap_or(u8::MAX);
    let (answer, start, length) = raw::view(record, byte);
    accepted(answer)?;
    Ok(part(record, start, length))
}
