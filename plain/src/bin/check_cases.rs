//! The slot cases of the check and of the order table: `check_cases records`
//! writes the records, each after its length in two bytes, and `check_cases
//! expected` what is to be said of them.

use plain::sample::{event, overwritten, s1, s2, torn, Record, READ, WRITE};
use plain::shapes::stores;
use plain::{check, order_table, EVIDENCE_ENTRIES};
use std::io::Write;

/// One instruction that reads and writes a register, in no order.
fn unordered() -> Record {
    Record {
        processors: 1,
        events: vec![event(0, READ, 0, 3, 0), event(0, WRITE, 0, 3, 1)],
        views: vec![vec![0, 1]],
        ..Record::default()
    }
}

fn cases() -> Vec<Vec<u8>> {
    let views = |first: &[u8], second: &[u8]| vec![first.to_vec(), second.to_vec()];
    let records = [
        s1(),
        Record { views: views(&[0, 1], &[2, 3, 0]), ..s1() },
        Record { views: views(&[1, 0, 2], &[2, 3, 0]), ..s1() },
        Record { store_order: vec![0], ..s1() },
        Record { reads_from: vec![(0, 3)], ..s1() },
        s2(),
        Record { locked_order: vec![0, 0], ..s2() },
        Record { views: views(&[0, 1, 2], &[3, 0, 2]), ..s2() },
        Record { views: views(&[0, 1, 2], &[0, 2, 3]), ..s2() },
        overwritten(),
        torn(),
        stores(64, 0),
        stores(65, 0),
        stores(64, 16),
        stores(64, 17),
        Record { causality: vec![(0, 1)], ..s1() },
        Record { causality: vec![(1, 0), (0, 1)], ..torn() },
        unordered(),
        Record { locked: vec![(0, 7)], ..s1() },
        Record { locked: vec![(0, 0), (1, 0), (0, 0)], ..s2() },
    ];
    let mut cases: Vec<Vec<u8>> = records.iter().map(Record::bytes).collect();
    let mut empty = vec![0; 18];
    empty[0] = 1;
    cases.push(empty);
    cases.push(vec![]);
    cases.push([s1().bytes(), vec![0]].concat());
    cases
}

fn row<T: std::fmt::Display>(name: &str, answer: u16, numbers: &[T]) {
    print!("{name} {answer}");
    for number in numbers {
        print!(" {number}");
    }
    println!();
}

fn table(name: &str, record: &[u8], room: usize) {
    let mut words = vec![7; room];
    let answer = order_table(record, &mut words);
    let filled = words.iter().position(|&word| word == 7).unwrap_or(room);
    row(name, answer, &words[..filled]);
}

fn expected(record: &[u8]) {
    let mut evidence = [9; EVIDENCE_ENTRIES];
    let (answer, written) = check(record, &mut evidence);
    let mut numbers = vec![written as u16];
    numbers.extend(&evidence[..written]);
    row("check", answer, &numbers);
    let mut short = [9; EVIDENCE_ENTRIES - 1];
    let (answer, written) = check(record, &mut short);
    row("short", answer, &[written as u16, short[0]]);
    table("order", record, 64);
    table("tight", record, 3);
}

fn main() {
    match std::env::args().nth(1).as_deref() {
        Some("records") => {
            let mut out = std::io::stdout();
            for record in cases() {
                out.write_all(&(record.len() as u16).to_le_bytes()).expect("records are written");
                out.write_all(&record).expect("records are written");
            }
        }
        Some("expected") => cases().iter().for_each(|record| expected(record)),
        _ => eprintln!("check_cases records|expected"),
    }
}
