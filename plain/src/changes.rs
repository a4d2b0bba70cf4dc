//! Small changes to records, such as barely break a rule, and damage to bytes.

use crate::runs::INDEXES;
use crate::sample::{Random, Record};

fn disturb(rng: &mut Random, list: &mut Vec<u8>, bound: usize) {
    let length = list.len();
    match rng.below(6) {
        0..=2 if length > 1 => {
            let at = rng.below(length - 1);
            list.swap(at, at + 1);
        }
        3 if length > 1 => {
            let item = list.remove(rng.below(length));
            list.insert(rng.below(length), item);
        }
        4 if length > 0 => {
            list.remove(rng.below(length));
        }
        5 if bound > 0 => list.insert(rng.below(length + 1), rng.below(bound) as u8),
        _ => {}
    }
}

fn disturb_pairs(rng: &mut Random, pairs: &mut Vec<(u8, u8)>, bound: usize) {
    let length = pairs.len();
    match rng.below(4) {
        0 if length > 0 => {
            pairs.remove(rng.below(length));
        }
        1 if length > 0 => pairs.push(rng.pick(pairs)),
        2 if length > 1 => {
            let (i, j) = (rng.below(length), rng.below(length));
            pairs[i].0 = pairs[j].0;
        }
        _ if bound > 0 => {
            let pair = (rng.below(bound) as u8, rng.below(bound) as u8);
            pairs.insert(rng.below(length + 1), pair);
        }
        _ => {}
    }
}

/// One small change that tends to keep the rules up to 24.
pub fn late_change(rng: &mut Random, record: &mut Record) {
    let p = rng.below(record.views.len().max(1));
    match rng.below(6) {
        0 | 1 => add_fitting_source(rng, record),
        2 | 3 => break_up(rng, record, p),
        4 => change_initial(rng, record),
        _ => {
            let count = record.reads_from.len();
            if count > 0 {
                record.reads_from.remove(rng.below(count));
            }
        }
    }
}

/// One small change somewhere in a record.
pub fn change(rng: &mut Random, record: &mut Record) {
    let n = record.events.len();
    let p = rng.below(record.views.len().max(1));
    match rng.below(18) {
        0..=4 => {
            if let Some(view) = record.views.get_mut(p) {
                disturb(rng, view, n);
            }
        }
        6 => disturb(rng, &mut record.store_order, n),
        7 => disturb(rng, &mut record.locked_order, record.locked.len()),
        8 | 9 => disturb_pairs(rng, &mut record.reads_from, n),
        10 => disturb_pairs(rng, &mut record.causality, n),
        11 if n > 0 => change_event(rng, record),
        12 => change_locked(rng, record),
        13 => change_initial(rng, record),
        5 | 14 | 16 => add_fitting_source(rng, record),
        15 => break_up(rng, record, p),
        _ => {}
    }
}

fn change_event(rng: &mut Random, record: &mut Record) {
    let e = rng.below(record.events.len());
    match rng.below(6) {
        0..=2 => record.events[e].value = rng.below(2) as u32,
        3 => record.events[e].index = rng.pick(&INDEXES),
        4 => record.events[e].kind = rng.below(4) as u8,
        _ => record.events[e].processor = rng.below(record.processors as usize) as u8,
    }
}

fn change_locked(rng: &mut Random, record: &mut Record) {
    let g = record.locked.len();
    match rng.below(4) {
        0 if g > 0 => {
            record.locked.remove(rng.below(g));
        }
        1 if g > 0 => record.locked.push(rng.pick(&record.locked)),
        2 => record.locked.push((rng.below(record.processors as usize) as u8, rng.pick(&INDEXES))),
        _ => rng.shuffle(&mut record.locked),
    }
}

pub fn change_initial(rng: &mut Random, record: &mut Record) {
    let count = record.initial.len();
    if count == 0 {
        return;
    }
    let at = rng.below(count);
    match rng.below(3) {
        0 => {
            record.initial.remove(at);
        }
        1 => record.initial[at].value ^= 1,
        _ => {
            let mut again = record.initial[at];
            again.value = rng.below(2) as u32;
            record.initial.insert(rng.below(count + 1), again);
        }
    }
}

/// Gives a read a source of the right place and value, on top of those it has
/// or in place of them.
pub fn add_fitting_source(rng: &mut Random, record: &mut Record) {
    let n = record.events.len();
    let mut fitting = Vec::new();
    for w in 0..n {
        for r in 0..n {
            let pair = (w as u8, r as u8);
            let new = !record.reads_from.contains(&pair);
            if new && record.events[w].feeds(&record.events[r]) {
                fitting.push(pair);
            }
        }
    }
    if fitting.is_empty() {
        return;
    }
    let pair = rng.pick(&fitting);
    if rng.once_in(2) {
        record.reads_from.retain(|old| old.1 != pair.1);
    }
    record.reads_from.push(pair);
}

/// Moves an item of a view between two events of a locked instruction there.
pub fn break_up(rng: &mut Random, record: &mut Record, p: usize) {
    let Some(view) = record.views.get_mut(p).filter(|view| view.len() > 1) else {
        return;
    };
    let name = |e: u8| record.events.get(e as usize).map(|e| e.instruction());
    let from = rng.below(view.len());
    let item = view.remove(from);
    let inside: Vec<usize> = (1..view.len())
        .filter(|&at| {
            let name = |at: usize| name(view[at]);
            name(at - 1) == name(at) && name(at).is_some_and(|name| record.locked.contains(&name))
        })
        .collect();
    let to = if inside.is_empty() { from } else { rng.pick(&inside) };
    view.insert(to, item);
}

/// Damage to the bytes themselves: a changed byte, a cut, bytes too many.
pub fn damage(rng: &mut Random, bytes: &mut Vec<u8>) {
    match rng.below(8) {
        0..=3 if !bytes.is_empty() => {
            let at = rng.below(bytes.len());
            bytes[at] = match rng.below(4) {
                0 => 255,
                1 => bytes[at].wrapping_add(1),
                2 => bytes[at].wrapping_sub(1),
                _ => rng.below(256) as u8,
            };
        }
        4 | 5 => bytes.truncate(rng.below(bytes.len() + 1)),
        6 => bytes.extend([0, 1, 255].iter().take(1 + rng.below(3))),
        7 if !bytes.is_empty() => {
            bytes.remove(rng.below(bytes.len()));
        }
        _ => {}
    }
}

/// Bytes that have the look of a small record.
pub fn random_bytes(rng: &mut Random) -> Vec<u8> {
    let mut bytes: Vec<u8> = (0..rng.below(60)).map(|_| rng.below(4) as u8).collect();
    if let Some(first) = bytes.first_mut() {
        *first = 1;
    }
    for byte in bytes.iter_mut() {
        if rng.once_in(2) {
            *byte = u8::from(rng.once_in(8));
        }
    }
    bytes
}
