//! Random records that come from a run, and lists near their sequence.

use crate::sample::{event, memory, register, Random, Record, LOAD, STORE};

/// How large a record is to be and from how many things its events choose.
pub struct Size {
    pub events: usize,
    pub indexes: usize,
    pub places: usize,
    pub registers: usize,
}

pub const SMALL: Size = Size { events: 7, indexes: 3, places: 2, registers: 2 };
pub const MIDDLE: Size = Size { events: 14, indexes: 5, places: 3, registers: 3 };
pub const LARGE: Size = Size { events: 64, indexes: 12, places: 8, registers: 6 };
pub const WIDE: Size = Size { events: 64, indexes: 200, places: 60, registers: 1 };
pub const NARROW: Size = Size { events: 8, indexes: 4, places: 1, registers: 1 };

const ADDRESSES: [u32; 8] = [100, 200, 0, 0xffff_fffc, 356, 612, 4, 8];
pub const INDEXES: [u16; 12] = [0, 1, 65535, 2, 256, 3, 4, 7, 9, 300, 500, 65534];

/// The i-th address; the later ones lie close together and far apart by turns.
fn address(i: usize) -> u32 {
    match ADDRESSES.get(i) {
        Some(&address) => address,
        None if i.is_multiple_of(2) => 4 * i as u32,
        None => (i as u32).wrapping_mul(0x0123_4568) & !3,
    }
}

/// The i-th instruction index, in no order.
fn index(i: usize) -> u16 {
    INDEXES.get(i).copied().unwrap_or((i as u16).wrapping_mul(40_503))
}

/// Sections 0 to 5 that keep the structure rules, values still open.
pub fn program(rng: &mut Random, size: &Size) -> Record {
    let processors = 1 + rng.below(4);
    let n = match rng.once_in(4) {
        true => size.events,
        false => rng.below(size.events + 1),
    };
    let mut record = Record { processors: processors as u8, ..Record::default() };
    for _ in 0..n {
        let processor = rng.below(processors) as u8;
        let kind = rng.below(4) as u8;
        let index = index(rng.below(size.indexes));
        let place = match kind {
            LOAD | STORE => address(rng.below(size.places)),
            _ => 14 - rng.below(size.registers) as u32,
        };
        record.events.push(event(processor, kind, index, place, rng.below(2) as u32));
    }
    add_causality(rng, &mut record);
    add_locked(rng, &mut record);
    add_initial(rng, &mut record, size);
    record
}

/// Whether rule 12 wants a section 3 pair of the two events.
pub fn pair_is_due(record: &Record, a: usize, b: usize) -> bool {
    let (x, y) = (&record.events[a], &record.events[b]);
    let one_register = !x.is_memory() && x.same_place(y) && record.same_instruction(a, b);
    one_register && (x.is_write() || y.is_write())
}

/// Pairs along a random rank of the events, always where rule 12 wants one.
fn add_causality(rng: &mut Random, record: &mut Record) {
    let n = record.events.len();
    let mut rank: Vec<usize> = (0..n).collect();
    if rng.once_in(2) {
        rng.shuffle(&mut rank);
    }
    for a in 0..n {
        for b in 0..n {
            if rank[a] >= rank[b] || !record.same_instruction(a, b) {
                continue;
            }
            let due = pair_is_due(record, a, b);
            if (due || rng.once_in(4)) && record.causality.len() < 128 {
                record.causality.push((a as u8, b as u8));
            }
        }
    }
    rng.shuffle(&mut record.causality);
}

fn add_locked(rng: &mut Random, record: &mut Record) {
    let rarely = 1 + rng.below(6);
    for i in 0..record.events.len() {
        let name = record.events[i].instruction();
        if rng.once_in(rarely) && !record.locked.contains(&name) && record.locked.len() < 16 {
            record.locked.push(name);
        }
    }
}

fn add_initial(rng: &mut Random, record: &mut Record, size: &Size) {
    for i in 0..size.places {
        if !rng.once_in(8) {
            record.initial.push(memory(address(i), rng.below(2) as u32));
        }
    }
    for processor in 0..record.processors {
        for i in 0..size.registers as u32 {
            if !rng.once_in(8) {
                record.initial.push(register(processor, 14 - i, rng.below(2) as u32));
            }
        }
    }
    rng.shuffle(&mut record.initial);
    record.initial.truncate(64);
}

/// A random sequence with each locked instruction together; if `keeping`, one
/// that keeps section 3 and preserved order.
pub fn sequence(rng: &mut Random, record: &Record, keeping: bool) -> Vec<u16> {
    let mut left: Vec<usize> = (0..record.events.len()).collect();
    let mut list = Vec::new();
    while !left.is_empty() {
        let start = rng.pick(&left);
        let mut together: Vec<usize> = match record.is_locked(start) {
            true => left.iter().copied().filter(|&x| record.same_instruction(start, x)).collect(),
            false => vec![start],
        };
        let blocked =
            |x: &usize| left.iter().any(|&a| !together.contains(&a) && record.keeps(a, *x));
        if keeping && together.iter().any(blocked) {
            continue;
        }
        left.retain(|x| !together.contains(x));
        while !together.is_empty() {
            let at = rng.below(together.len());
            let x = together[at];
            if !keeping || !together.iter().any(|&a| record.keeps(a, x)) {
                list.push(together.remove(at) as u16);
            }
        }
    }
    list
}

/// Gives each read the value its place holds in the sequence, if it holds one.
pub fn run(record: &mut Record, list: &[u16]) {
    for (i, &e) in list.iter().enumerate() {
        let now = record.events[e as usize];
        if now.is_write() {
            continue;
        }
        let mut earlier = list[..i].iter().rev().map(|&w| record.events[w as usize]);
        let last = earlier.find(|w| w.is_write() && w.same_place(&now));
        if let Some(value) = last.map(|w| w.value).or(record.initial_value(&now)) {
            record.events[e as usize].value = value;
        }
    }
}

/// A record of a run, and the sequence it was run in.
pub fn from_run(rng: &mut Random, size: &Size) -> (Record, Vec<u16>) {
    let mut record = program(rng, size);
    let keeping = !rng.once_in(5);
    let list = sequence(rng, &record, keeping);
    if !rng.once_in(6) {
        run(&mut record, &list);
    }
    (record.with_witness_of(&list), list)
}

/// Swaps neighbours in the views where the record stays valid, so that the
/// processors see the stores in orders of their own.
pub fn vary_views(rng: &mut Random, record: &mut Record, swaps: usize) {
    for p in 0..record.views.len() {
        for _ in 0..swaps {
            if record.views[p].len() < 2 {
                break;
            }
            let at = rng.below(record.views[p].len() - 1);
            record.views[p].swap(at, at + 1);
            if record.checked().0 != 0 {
                record.views[p].swap(at, at + 1);
            }
        }
    }
}

/// A list of another length.
fn wrong_length(rng: &mut Random, list: &[u16]) -> Vec<u16> {
    let n = list.len();
    match rng.below(5) {
        0 => list[..n / 2].to_vec(),
        1 | 2 if n > 0 => list[..n - 1].to_vec(),
        3 => (0..80).collect(),
        _ => [list, &[rng.below(n + 1) as u16]].concat(),
    }
}

/// A list with a number that is no event's, or two.
fn wrong_number(rng: &mut Random, list: &[u16]) -> Vec<u16> {
    let mut list = list.to_vec();
    let n = list.len();
    for _ in 0..rng.pick(&[1, 1, 2]) {
        let any = rng.below(n);
        let at = rng.pick(&[0, n - 1, any, any]);
        let low = list[at] & 0xff;
        list[at] = rng.pick(&[n as u16, n as u16 + 1, 64, 255, 256, low + 256, 65535]);
    }
    list
}

/// A list that repeats an event, or two.
fn repeated(rng: &mut Random, list: &[u16]) -> Vec<u16> {
    let mut list = list.to_vec();
    for _ in 0..rng.pick(&[1, 1, 2]) {
        let at = rng.below(list.len());
        list[at] = rng.pick(&list);
    }
    list
}

/// A list with one event moved, mostly by one place.
fn moved(rng: &mut Random, list: &[u16]) -> Vec<u16> {
    let mut list = list.to_vec();
    let from = rng.below(list.len());
    let event = list.remove(from);
    let to = match rng.below(3) {
        0 => rng.below(list.len() + 1),
        1 => (from + 1).min(list.len()),
        _ => from.saturating_sub(1),
    };
    list.insert(to, event);
    list
}

/// A list near a sequence of the record: with events moved, of another
/// sequence, or wrong.
pub fn near(rng: &mut Random, record: &Record, list: &[u16]) -> Vec<u16> {
    if list.is_empty() {
        return wrong_length(rng, list);
    }
    match rng.below(8) {
        0 => wrong_length(rng, list),
        1 => wrong_number(rng, list),
        2 => repeated(rng, list),
        3 => sequence(rng, record, true),
        4 => sequence(rng, record, false),
        5 => {
            let once = moved(rng, list);
            moved(rng, &once)
        }
        _ => moved(rng, list),
    }
}
