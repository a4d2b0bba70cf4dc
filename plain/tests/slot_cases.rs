//! The slot cases, and the errors a builder falls into, one test each.

use plain::sample::{event, overwritten, register, s1, s2, torn, Record, LOAD, READ, STORE, WRITE};
use plain::shapes::{longest, stores};
use plain::{check, form, order_table, read_off, structure, view};

#[test]
fn s1_is_valid() {
    assert_eq!(s1().bytes().len(), 102);
    assert_eq!(s1().checked(), (0, vec![]));
}

#[test]
fn s1_with_a_view_too_short() {
    let record = Record { views: vec![vec![0, 1], vec![2, 3, 0]], ..s1() };
    assert_eq!(record.checked(), (20, vec![0, 2]));
}

#[test]
fn s1_with_store_order_too_short() {
    let record = Record { store_order: vec![0], ..s1() };
    assert_eq!(record.checked(), (21, vec![2]));
}

#[test]
fn s1_with_a_source_of_another_value() {
    let record = Record { reads_from: vec![(0, 3)], ..s1() };
    assert_eq!(record.checked(), (23, vec![0, 3]));
}

#[test]
fn s2_has_a_cycle() {
    assert_eq!(s2().checked(), (24, vec![1, 0, 2]));
}

#[test]
fn s2_with_view_3_0_2() {
    let record = Record { views: vec![vec![0, 1, 2], vec![3, 0, 2]], ..s2() };
    assert_eq!(record.checked(), (24, vec![1, 2, 3]));
}

#[test]
fn s2_with_view_0_2_3() {
    let record = Record { views: vec![vec![0, 1, 2], vec![0, 2, 3]], ..s2() };
    assert_eq!(record.checked(), (26, vec![1, 3, 2, 0]));
}

#[test]
fn overwritten_source() {
    assert_eq!(overwritten().checked(), (25, vec![0, 0, 2, 1]));
}

#[test]
fn locked_instruction_broken_up() {
    assert_eq!(torn().checked(), (27, vec![1, 0, 2, 1]));
}

#[test]
fn replays() {
    assert_eq!(s1().replayed(&[1, 3, 0, 2]), (0, vec![]));
    assert_eq!(s1().replayed(&[0, 1, 2, 3]), (33, vec![3]));
    assert_eq!(s2().replayed(&[1, 3, 0, 2]), (32, vec![0, 1]));
    assert_eq!(s1().replayed(&[0, 3, 1, 2]), (33, vec![3]));
}

#[test]
fn least_records() {
    let mut bytes = [0; 18];
    bytes[0] = 1;
    assert_eq!(check(&bytes, &mut [0; 65]), (0, 0));
    let mut evidence = [7; 65];
    assert_eq!(check(&[], &mut evidence), (2, 1));
    assert_eq!(evidence[0], 0);
}

#[test]
fn limits() {
    assert_eq!(form(&stores(64, 0).bytes()), (0, 0));
    assert_eq!(form(&stores(65, 0).bytes()), (3, 2));
    assert_eq!(form(&stores(64, 16).bytes()), (0, 0));
    assert_eq!(form(&stores(64, 17).bytes()), (3, 4));
    assert_eq!(stores(64, 16).checked(), (0, vec![]));
}

/// A record as long as the form allows has 2,346 bytes.
#[test]
fn longest_record() {
    let record = longest();
    assert_eq!(record.bytes().len(), plain::LONGEST_RECORD);
    assert_eq!(record.checked(), (23, vec![0, 63]));
    assert_eq!(Record { reads_from: vec![], ..record }.checked(), (0, vec![]));
}

#[test]
fn a_store_may_pass_a_later_load_of_another_address() {
    let record = Record { views: vec![vec![1, 0, 2], vec![2, 3, 0]], ..s1() };
    assert_eq!(record.checked(), (0, vec![]));
}

#[test]
fn order_table_of_s2() {
    let mut table = [9; 5];
    assert_eq!(order_table(&s2().bytes(), &mut table), 0);
    assert_eq!(table, [0b110, 0, 0b1000, 0, 9]);
    let counts: Vec<u32> = table[..4].iter().map(|row| row.count_ones()).collect();
    assert_eq!(counts, [2, 0, 1, 0]);
    assert_eq!(order_table(&s2().bytes(), &mut [0; 3]), 1);
}

#[test]
fn view_is_a_part_of_the_record() {
    let bytes = s1().bytes();
    assert_eq!(view(&bytes, 0), (0, 94, 3));
    assert_eq!(view(&bytes, 1), (0, 99, 3));
    assert_eq!(&bytes[99..], [2, 3, 0]);
    assert_eq!(view(&bytes, 2), (4, 0, 0));
    assert_eq!(view(&bytes[..101], 0), (2, 0, 0));
}

#[test]
fn read_off_of_s1() {
    let mut out = [0x5a; plain::LONGEST_RECORD];
    let (answer, length) = read_off(&s1().bytes(), &[1, 3, 0, 2], &mut out);
    let expected = Record { views: vec![vec![1, 0, 2], vec![3, 0, 2]], ..s1() };
    assert_eq!((answer, &out[..length]), (0, &expected.bytes()[..]));
    assert!(out[length..].iter().all(|&byte| byte == 0x5a));
}

/// A locked instruction that another processor sees only by its stores.
#[test]
fn a_locked_instruction_is_seen_by_its_stores() {
    let record = Record {
        processors: 2,
        events: vec![
            event(0, READ, 0, 3, 1),
            event(0, LOAD, 0, 100, 0),
            event(0, STORE, 0, 100, 1),
            event(0, WRITE, 0, 3, 0),
            event(1, STORE, 0, 108, 1),
        ],
        causality: vec![(0, 2), (1, 3), (0, 3)],
        locked: vec![(0, 0)],
        initial: vec![plain::sample::memory(100, 0), register(0, 3, 1)],
        store_order: vec![2, 4],
        locked_order: vec![0],
        views: vec![vec![0, 1, 2, 3, 4], vec![4, 2]],
        ..Record::default()
    };
    assert_eq!(record.checked(), (0, vec![]));
    let without = Record { causality: vec![(0, 2), (1, 3)], ..record };
    let mut evidence = [0; 65];
    assert_eq!(structure(&without.bytes(), &mut evidence), (12, 2));
    assert_eq!(evidence[..2], [0, 3]);
}
