//! Lists for the replay and the read-off: sequences that replay to 0, and lists
//! that barely break one of the rules 28 to 33.

use super::asking::Asker;
use super::bases::{Base, Pool};
use crate::runs::near;
use crate::sample::{Random, Record};
use std::collections::BTreeMap;

/// How many lists are tried for a record.
const TRIES: usize = 24;

/// How many lists are at most taken for an answer.
fn most_of(answer: u16) -> usize {
    if [0, 31, 32, 33].contains(&answer) {
        2
    } else {
        1
    }
}

/// Lists for as many answers as there are.
fn various(rng: &mut Random, record: &Record, list: &[u16]) -> Vec<(u16, Vec<u16>)> {
    let mut taken: Vec<(u16, Vec<u16>)> = Vec::new();
    let mut counts: BTreeMap<u16, usize> = BTreeMap::new();
    for _ in 0..TRIES {
        let list = near(rng, record, list);
        let (answer, _) = record.replayed(&list);
        let count = counts.entry(answer).or_default();
        if *count < most_of(answer) && taken.iter().all(|known| known.1 != list) {
            *count += 1;
            taken.push((answer, list));
        }
    }
    taken
}

/// Some reads get another value, or their place no initial one: the replay of
/// a sequence that keeps the orders then stops at the first of them.
fn misread(rng: &mut Random, record: &mut Record) {
    let reads: Vec<usize> =
        (0..record.events.len()).filter(|&e| !record.events[e].is_write()).collect();
    if reads.is_empty() {
        return;
    }
    for _ in 0..rng.pick(&[1, 2, 3]) {
        let read = &mut record.events[rng.pick(&reads)];
        if rng.once_in(4) {
            record.initial.retain(|i| !i.is_of(read));
        } else {
            read.value ^= 1 << rng.below(32);
        }
    }
}

/// Empties sections 6 to 9, which the replay and the read-off do not use.
fn forget_witness(record: &mut Record) {
    record.store_order.clear();
    record.locked_order.clear();
    record.reads_from.clear();
    record.views.iter_mut().for_each(Vec::clear);
}

/// The record by various lists; a read-off of those that it refuses, and of
/// few others.
fn ask_lists(asker: &mut Asker, record: &Record, list: &[u16]) {
    let mut questions = Vec::new();
    for (answer, list) in various(&mut asker.rng, record, list) {
        questions.push(asker.replay(&list));
        let refused = (28..=31).contains(&answer);
        if asker.rng.once_in(if refused { 2 } else { 16 }) {
            questions.push(asker.read_off(&list));
        }
    }
    asker.add(record.bytes(), questions);
}

/// Adds all cases of the rules 28 to 33.
pub fn ask(asker: &mut Asker, pool: &Pool) {
    for (i, Base { record, list }) in pool.bases().enumerate() {
        let mut record = record.clone();
        match i % 5 {
            0 => misread(&mut asker.rng, &mut record),
            1 => forget_witness(&mut record),
            2 => {}
            _ => continue,
        }
        ask_lists(asker, &record, list);
    }
    for Base { record, list } in pool.large().step_by(3) {
        ask_lists(asker, record, list);
    }
}
