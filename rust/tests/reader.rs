//! The reader: the entries of a record one by one.

mod records;

use records::{slot_case, Record};
use reefmitten::{entries, raw, Entry, Rule};

/// The entries of S1: four events, two initial values, the store order, the two views.
#[test]
fn entries_of_s1() {
    let s1 = slot_case("s1");
    let expected = [
        (2, 4, 12),
        (2, 16, 12),
        (2, 28, 12),
        (2, 40, 12),
        (5, 58, 12),
        (5, 70, 12),
        (6, 84, 1),
        (6, 85, 1),
        (9, 92, 5),
        (9, 97, 5),
    ];
    let read = entries(&s1).unwrap().map(|entry| (entry.section, entry.place, entry.bytes.len()));
    assert!(read.eq(expected));
}

/// Their bytes are parts of the record itself.
#[test]
fn entries_are_parts_of_the_record() {
    let s1 = slot_case("s1");
    for Entry { place, bytes, .. } in entries(&s1).unwrap() {
        assert!(core::ptr::eq(bytes, &s1[place..place + bytes.len()]));
    }
}

/// An entry of each section, in order.
#[test]
fn every_section() {
    let record = Record {
        processors: 1,
        events: &[[0; 12]],
        causality: &[[0; 2]],
        locked: &[[0; 4]],
        initial: &[[0; 12]],
        store_order: &[[0]],
        locked_order: &[[0]],
        reads_from: &[[0; 2]],
        views: &[&[]],
    };
    let bytes = record.bytes();
    let read = entries(&bytes).unwrap().map(|entry| (entry.section, entry.bytes.len()));
    assert!(read.eq([(2, 12), (3, 2), (4, 4), (5, 12), (6, 1), (7, 1), (8, 2), (9, 2)]));
}

#[test]
fn none_behind_the_last() {
    let empty = slot_case("empty");
    assert_eq!(entries(&empty).unwrap().next(), None);
    let s1 = slot_case("s1");
    let mut reader = entries(&s1).unwrap();
    assert_eq!(reader.by_ref().last().map(|entry| entry.place), Some(97));
    assert_eq!((reader.next(), reader.next()), (None, None));
}

#[test]
fn refused_records_have_no_entries() {
    let s1 = slot_case("s1");
    for length in 0..s1.len() {
        assert_eq!(entries(&s1[..length]).err(), Some(Rule::CutShort));
        assert_eq!(raw::open(&s1[..length]), (2, 0));
    }
    assert_eq!(entries(&slot_case("events-65")).err(), Some(Rule::CountOverLimit));
    assert_eq!(entries(&[&s1[..], &[0]].concat()).err(), Some(Rule::BytesLeftOver));
    assert_eq!(raw::next(&[], 0), (0, 0, 0));
}

/// The first entry at or behind any place, also one between entries or far off.
#[test]
fn from_any_place() {
    let s1 = slot_case("s1");
    assert_eq!(raw::next(&s1, 5), (2, 16, 12));
    assert_eq!(raw::next(&s1, 41), (5, 58, 12));
    assert_eq!(raw::next(&s1, 97), (9, 97, 5));
    for at in [98, 102, usize::MAX] {
        assert_eq!(raw::next(&s1, at), (0, 0, 0));
    }
}
