//! Records built on purpose for one rule.

use crate::sample::{event, memory, register, Event, Random, Record, LOAD, READ, STORE};

/// One processor stores `n` times, each time by an instruction of its own, the
/// first `g` of which are locked.
pub fn stores(n: usize, g: usize) -> Record {
    let numbers: Vec<u8> = (0..n as u8).collect();
    Record {
        processors: 1,
        events: (0..n).map(|i| event(0, STORE, i as u16, 4 * i as u32, 1)).collect(),
        locked: (0..g).map(|i| (0, i as u16)).collect(),
        store_order: numbers.clone(),
        locked_order: (0..g as u8).collect(),
        views: vec![numbers],
        ..Record::default()
    }
}

/// A record as long as the form allows: 16 locked instructions of four stores
/// each. Only its section 8 breaks a rule.
pub fn longest() -> Record {
    let pairs = [(0, 1), (0, 2), (0, 3), (1, 2), (1, 3), (2, 3), (0, 1), (2, 3)];
    let all: Vec<u8> = (0..64).collect();
    Record {
        processors: 4,
        events: (0..64).map(|i| event(i / 16, STORE, i as u16 / 4, 4 * i as u32, 1)).collect(),
        causality: (0..16).flat_map(|i| pairs.map(|(a, b)| (4 * i + a, 4 * i + b))).collect(),
        locked: (0..16).map(|i| (i / 4, i as u16)).collect(),
        initial: (0..64).map(|i| memory(4 * i, 0)).collect(),
        store_order: all.clone(),
        locked_order: (0..16).collect(),
        reads_from: vec![(0, 63); 64],
        views: vec![all; 4],
    }
}

/// A record whose every cycle leads by what only the walker sees. The looker
/// stores; an instruction of the walker loads that, passes through register
/// reads by section 3 and stores elsewhere; the looker sees the second store
/// first. The events in this order have the numbers of `number`; `ways` are
/// the pairs of section 3 by places in it, and lead from lower to higher.
pub fn roundabout(number: &[u8], ways: &[(usize, usize)], looker: u8, walker: u8) -> Record {
    let n = number.len();
    let mut events = vec![event(0, READ, 0, 0, 0); n];
    for (i, &e) in number.iter().enumerate() {
        events[e as usize] = match i {
            0 => event(looker, STORE, 0, 100, 1),
            1 => event(walker, LOAD, 0, 100, 1),
            _ if i == n - 1 => event(walker, STORE, 0, 200, 1),
            _ => event(walker, READ, 0, (i as u32 - 2) % 15, 0),
        };
    }
    let (first, last) = (number[0], number[n - 1]);
    let processors = 1 + looker.max(walker);
    let view = |p: u8| match p {
        _ if p == looker => vec![last, first],
        _ if p == walker => number.to_vec(),
        _ => vec![first, last],
    };
    Record {
        processors,
        events,
        causality: ways.iter().map(|&(a, b)| (number[a], number[b])).collect(),
        initial: (0..15.min(n as u32 - 3)).map(|i| register(walker, i, 0)).collect(),
        store_order: vec![first, last],
        reads_from: vec![(first, number[1])],
        views: (0..processors).map(view).collect(),
        ..Record::default()
    }
}

/// The pairs of a single way through all places from 1 on.
pub fn single_way(n: usize) -> Vec<(usize, usize)> {
    (2..n).map(|i| (i - 1, i)).collect()
}

/// Any relation as section 3 of one instruction of register reads, which no
/// other structure rule touches.
pub fn relation(n: usize, causality: Vec<(u8, u8)>) -> Record {
    Record {
        processors: 1,
        events: vec![event(0, READ, 0, 0, 0); n],
        causality,
        views: vec![vec![]],
        ..Record::default()
    }
}

/// Random pairs of up to n events, few of which lead back, so that cycles are
/// long.
pub fn random_pairs(rng: &mut Random, n: usize, pairs: usize) -> Vec<(u8, u8)> {
    let pairs = 1 + rng.below(pairs);
    let descending = rng.once_in(2);
    let mut causality = Vec::new();
    for _ in 0..pairs {
        let (a, b) = (rng.below(n) as u8, rng.below(n) as u8);
        let forward = rng.below(8) > 0;
        causality.push(if (a > b) == (forward != descending) { (b, a) } else { (a, b) });
    }
    if !rng.once_in(4) {
        causality.retain(|(a, b)| a != b);
    }
    causality
}

/// Views that merge the processors' programs anyhow: processor 0 has locked
/// instructions of several stores and register reads, the others plain ones.
pub fn merged(rng: &mut Random) -> Record {
    let processors = 1 + rng.below(3) as u8;
    let mut record = Record { processors, ..Record::default() };
    for i in 0..rng.below(11) {
        let p = rng.below(processors as usize) as u8;
        let index = rng.below(3) as u16;
        record.events.push(match rng.once_in(3) {
            true => event(p, READ, index, 0, 0),
            false => event(p, STORE, index, 4 * i as u32, 0),
        });
        if p == 0 && !record.locked.contains(&(0, index)) && !rng.once_in(4) {
            record.locked.push((0, index));
        }
    }
    record.locked.sort();
    record.locked_order = (0..record.locked.len() as u8).collect();
    record.initial = (0..processors).map(|p| register(p, 0, 0)).collect();
    let is_store = |e: &u8| record.events[*e as usize].kind == STORE;
    record.store_order = (0..record.events.len() as u8).filter(is_store).collect();
    record.views = (0..processors).map(|p| merged_view(rng, &record, p)).collect();
    record
}

/// What the processor sees of each program, in program order each.
fn merged_view(rng: &mut Random, record: &Record, p: u8) -> Vec<u8> {
    let of = |e: &u8| -> &Event { &record.events[*e as usize] };
    let mut programs = Vec::new();
    for q in 0..record.processors {
        let mut program: Vec<u8> = (0..record.events.len() as u8)
            .filter(|e| of(e).processor == q && record.sees(p as usize, *e as usize))
            .collect();
        rng.shuffle(&mut program);
        program.sort_by_key(|e| std::cmp::Reverse(of(e).index));
        programs.push(program);
    }
    let mut view = Vec::new();
    while programs.iter().any(|program| !program.is_empty()) {
        view.extend(programs[rng.below(record.processors as usize)].pop());
    }
    view
}
