//! The proved judge's operations on buffers full of marks, in the shape of
//! `plain::marked`: the answer and what was written.
#![forbid(unsafe_code)]

use plain::marked::{with_bytes, with_evidence, with_words};
use reefmitten::raw;

pub fn check(record: &[u8], room: usize) -> (u16, Vec<u16>) {
    with_evidence(room, |evidence| raw::check(record, evidence))
}

pub fn replay(record: &[u8], list: &[u16], room: usize) -> (u16, Vec<u16>) {
    with_evidence(room, |evidence| raw::replay(record, list, evidence))
}

pub fn read_off(record: &[u8], list: &[u16], room: usize) -> (u16, Vec<u8>) {
    with_bytes(room, |out| raw::read_off(record, list, out))
}

pub fn order_table(record: &[u8], room: usize) -> (u16, Vec<u64>) {
    with_words(record, room, |table| raw::order_table(record, table))
}

/// The view question, by the typed function: a part of the record itself.
pub fn view(record: &[u8], processor: u16) -> (u16, Vec<u8>) {
    match reefmitten::view(record, processor) {
        Ok(part) => (0, part.to_vec()),
        Err(rule) => (rule.number(), Vec::new()),
    }
}

/// The reader, by the iterator: section, place and length of each entry.
pub fn reader(record: &[u8]) -> (u16, Vec<(u16, usize, usize)>) {
    match reefmitten::entries(record) {
        Ok(entries) => (0, entries.map(|e| (e.section, e.place, e.bytes.len())).collect()),
        Err(rule) => (rule.number(), Vec::new()),
    }
}
