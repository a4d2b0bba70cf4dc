//! Prints what reading and structure answer for small changes to slot case S1
//! and for records at the limits of sections 2 and 4, one case a line.

use plain::sample::{event, s1, Record, LOAD};
use plain::{form, structure, EVIDENCE_ENTRIES};

/// One processor with `n` loads of address 0 by its instruction 0, which is
/// named `g` times as locked. All other sections are empty, save that section 9
/// has the one view that is due, with no events in it.
fn loads(n: usize, g: usize) -> Record {
    Record {
        processors: 1,
        events: (0..n).map(|_| event(0, LOAD, 0, 0, 0)).collect(),
        locked: (0..g).map(|_| (0, 0)).collect(),
        views: vec![vec![]],
        ..Record::default()
    }
}

fn print_form(case: &str, number: usize, record: &[u8]) {
    match form(record) {
        (0, _) => println!("{case} {number} 0 0"),
        (answer, section) => println!("{case} {number} {answer} 1 {section}"),
    }
}

fn print_structure(case: &str, number: usize, record: &[u8]) {
    let mut evidence = [0; EVIDENCE_ENTRIES];
    let (answer, written) = structure(record, &mut evidence);
    print!("{case} {number} {answer} {written}");
    for entry in &evidence[..written] {
        print!(" {entry}");
    }
    println!();
}

fn main() {
    let whole = s1().bytes();
    for length in 0..whole.len() {
        print_form("cut", length, &whole[..length]);
    }
    for place in 0..whole.len() {
        let mut changed = whole.clone();
        changed[place] = 255;
        print_structure("byte", place, &changed);
    }
    for n in [64, 65] {
        print_form("events", n, &loads(n, 0).bytes());
    }
    for g in [16, 17] {
        print_form("locked", g, &loads(64, g).bytes());
    }
}
