//! The cases of the replay and of the read-off: `replay_cases records` writes
//! them, each after the lengths of its record and of its list, in two bytes
//! each, and `replay_cases expected` what is to be said of them.

use plain::sample::{orders_of_four, s1, s2, torn, Record};
use plain::shapes::stores;
use plain::{check, read_off, replay, EVIDENCE_ENTRIES, LONGEST_RECORD};
use std::io::Write;

type Case = (Vec<u8>, Vec<u16>);

/// 64 stores of one processor, without a witness.
fn no_witness() -> Record {
    Record { store_order: vec![], views: vec![vec![]], ..stores(64, 0) }
}

fn cases() -> Vec<Case> {
    let mut cases: Vec<Case> = Vec::new();
    for record in [s1(), s2()] {
        for order in orders_of_four() {
            cases.push((record.bytes(), order));
        }
    }
    let lists: [&[u16]; 10] = [
        &[],
        &[0, 1, 2],
        &[0, 1, 2, 3, 0],
        &[0, 4, 65535, 3],
        &[65535, 0, 1, 2],
        &[3, 2, 1, 259],
        &[0, 1, 2, 2],
        &[3, 3, 3, 3],
        &[1, 3, 0, 0],
        &[0; 80],
    ];
    for list in lists {
        cases.push((s1().bytes(), list.to_vec()));
    }
    for list in [[0, 2, 1], [1, 2, 0], [2, 1, 0], [0, 1, 2]] {
        cases.push((torn().bytes(), list.to_vec()));
    }
    let all: Vec<u16> = (0..64).collect();
    cases.push((no_witness().bytes(), all.clone()));
    cases.push((no_witness().bytes(), all.iter().rev().copied().collect()));
    let bad = Record { locked: vec![(0, 7)], ..s1() };
    cases.push((bad.bytes(), vec![]));
    let no_initial = Record { initial: vec![], ..s1() };
    cases.push((no_initial.bytes(), vec![0, 2, 1, 3]));
    let mut empty = vec![0; 18];
    empty[0] = 1;
    cases.push((empty.clone(), vec![]));
    cases.push((empty, vec![0]));
    cases.push((vec![], vec![0]));
    cases.push((s1().bytes()[..101].to_vec(), vec![1, 3, 0, 2]));
    cases
}

/// Where section 6 of a record of form 1 begins.
fn witness_start(record: &[u8]) -> usize {
    let count = |at: usize| u16::from_le_bytes([record[at], record[at + 1]]) as usize;
    [12, 2, 4, 12].iter().fold(2, |at, width| at + 2 + width * count(at))
}

fn row<T: std::fmt::Display>(name: &str, answer: u16, numbers: &[T]) {
    print!("{name} {answer}");
    for number in numbers {
        print!(" {number}");
    }
    println!();
}

fn judged(name: &str, (answer, written): (u16, usize), evidence: &[u16]) {
    let mut numbers = vec![written as u16];
    numbers.extend(&evidence[..written]);
    row(name, answer, &numbers);
}

fn expected((record, list): &Case) {
    let numbers: String = list.iter().map(|number| format!(" {number}")).collect();
    println!("record {} list{numbers}", record.len());
    let mut evidence = [9; EVIDENCE_ENTRIES];
    judged("replay", replay(record, list, &mut evidence), &evidence);
    let mut short = [9; EVIDENCE_ENTRIES - 1];
    let (answer, written) = replay(record, list, &mut short);
    row("short", answer, &[written as u16, short[0]]);
    let mut out = [7; LONGEST_RECORD + 1];
    let (answer, length) = read_off(record, list, &mut out);
    let from = if answer == 0 { witness_start(record) } else { 0 };
    let mut numbers = vec![length];
    numbers.extend(out[from..=length].iter().map(|&byte| byte as usize));
    row("off", answer, &numbers);
    if answer == 0 {
        let mut evidence = [9; EVIDENCE_ENTRIES];
        judged("check", check(&out[..length], &mut evidence), &evidence);
    }
    let mut tight = [7; LONGEST_RECORD - 1];
    let (answer, length) = read_off(record, list, &mut tight);
    row("tight", answer, &[length, tight[0] as usize]);
}

fn main() {
    match std::env::args().nth(1).as_deref() {
        Some("records") => {
            let mut out = std::io::stdout();
            for (record, list) in cases() {
                let mut bytes = (record.len() as u16).to_le_bytes().to_vec();
                bytes.extend((list.len() as u16).to_le_bytes());
                bytes.extend(record);
                bytes.extend(list.iter().flat_map(|number| number.to_le_bytes()));
                out.write_all(&bytes).expect("cases are written");
            }
        }
        Some("expected") => cases().iter().for_each(expected),
        _ => eprintln!("replay_cases records|expected"),
    }
}
