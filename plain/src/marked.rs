//! The operations on buffers full of marks: the answer and what was written.
//! What lies behind that must be marks still.

use crate::EVIDENCE_ENTRIES;

const ENTRY: u16 = 0xbeef;
const BYTE: u8 = 0xa5;
const WORD: u64 = 0xa5a5_a5a5_a5a5_a5a5;

/// The front of a buffer of marks, the rest of which must be marks still.
fn front<T: PartialEq + Copy>(buffer: &[T], written: usize, mark: T) -> Vec<T> {
    assert!(buffer[written..].iter().all(|&entry| entry == mark), "wrote past its count");
    buffer[..written].to_vec()
}

/// An operation that is lent so many entries for evidence.
pub fn with_evidence(
    room: usize,
    operation: impl FnOnce(&mut [u16]) -> (u16, usize),
) -> (u16, Vec<u16>) {
    let mut evidence = vec![ENTRY; room];
    let (answer, written) = operation(&mut evidence);
    (answer, front(&evidence, written, ENTRY))
}

/// An operation that is lent so many bytes.
pub fn with_bytes(
    room: usize,
    operation: impl FnOnce(&mut [u8]) -> (u16, usize),
) -> (u16, Vec<u8>) {
    let mut out = vec![BYTE; room];
    let (answer, length) = operation(&mut out);
    (answer, front(&out, length, BYTE))
}

/// An operation that is lent so many words; on 0 it writes one for each event.
pub fn with_words(
    record: &[u8],
    room: usize,
    operation: impl FnOnce(&mut [u64]) -> u16,
) -> (u16, Vec<u64>) {
    let mut table = vec![WORD; room];
    let answer = operation(&mut table);
    let n = if answer == 0 { u16::from_le_bytes([record[2], record[3]]) } else { 0 };
    (answer, front(&table, n as usize, WORD))
}

pub fn check(record: &[u8], room: usize) -> (u16, Vec<u16>) {
    with_evidence(room, |evidence| crate::check(record, evidence))
}

pub fn structure(record: &[u8]) -> (u16, Vec<u16>) {
    with_evidence(EVIDENCE_ENTRIES, |evidence| crate::structure(record, evidence))
}

pub fn replay(record: &[u8], list: &[u16], room: usize) -> (u16, Vec<u16>) {
    with_evidence(room, |evidence| crate::replay(record, list, evidence))
}

pub fn read_off(record: &[u8], list: &[u16], room: usize) -> (u16, Vec<u8>) {
    with_bytes(room, |out| crate::read_off(record, list, out))
}

pub fn order_table(record: &[u8], room: usize) -> (u16, Vec<u64>) {
    with_words(record, room, |table| crate::order_table(record, table))
}

/// The view question; a refusal gives a part of length 0.
pub fn view(record: &[u8], processor: u16) -> (u16, Vec<u8>) {
    let (answer, start, length) = crate::view(record, processor);
    assert!(answer == 0 || length == 0, "a part on a refusal");
    (answer, record[start..start + length].to_vec())
}

/// The reader: the answer of opening, and section, place and length of each
/// entry in turn.
pub fn reader(record: &[u8]) -> (u16, Vec<(u16, usize, usize)>) {
    let (answer, _) = crate::form(record);
    let mut entries = Vec::new();
    let mut at = 0;
    while let (0, Some(entry)) = (answer, crate::next_entry(record, at)) {
        entries.push(entry);
        at = entry.1 + 1;
    }
    (answer, entries)
}
