//! Changes that break one rule of the check each, where the record lets them.

use crate::changes::{add_fitting_source, break_up, change_initial};
use crate::runs::pair_is_due;
use crate::sample::{Event, Random, Record, STORE};

/// A change that may break a rule.
pub type Change = fn(&mut Random, &mut Record);

/// The changes, and the answer that each is made for.
pub const CHANGES: [(u16, Change); 27] = [
    (10, join_instructions),
    (11, close_ring),
    (11, turn_pair),
    (12, drop_due_pair),
    (13, lock_nothing),
    (14, lock_again),
    (20, miscount_view),
    (21, miscount_stores),
    (22, miscount_locked),
    (23, add_unfit_pair),
    (23, change_read_value),
    (24, disorder_view),
    (24, disorder_stores),
    (24, disorder_locked),
    (24, add_fitting_source),
    (25, take_older_source),
    (25, scramble_sources),
    (25, see_store_early),
    (25, add_fitting_source),
    (26, drop_source),
    (26, scramble_sources),
    (26, hide_source),
    (26, drop_initial),
    (26, change_initial),
    (26, change_initial_bit),
    (26, see_store_early),
    (27, break_up_some),
];

/// Some pair of events that fits.
fn some_pair(
    rng: &mut Random,
    record: &Record,
    fits: impl Fn(usize, usize) -> bool,
) -> Option<(u8, u8)> {
    let n = record.events.len();
    let pairs = (0..n).flat_map(|a| (0..n).map(move |b| (a, b)));
    let fitting: Vec<(u8, u8)> =
        pairs.filter(|&(a, b)| fits(a, b)).map(|(a, b)| (a as u8, b as u8)).collect();
    rng.some(&fitting)
}

/// Some read that has a source, or some that has none.
fn some_read(rng: &mut Random, record: &Record, sourced: bool) -> Option<u8> {
    let fits = |r: &u8| {
        let has_source = record.reads_from.iter().any(|pair| pair.1 == *r);
        !record.events[*r as usize].is_write() && has_source == sourced
    };
    let reads: Vec<u8> = (0..record.events.len() as u8).filter(fits).collect();
    rng.some(&reads)
}

fn join_instructions(rng: &mut Random, record: &mut Record) {
    if let Some(pair) = some_pair(rng, record, |a, b| !record.same_instruction(a, b)) {
        rng.insert(&mut record.causality, pair);
    }
}

/// A ring of pairs through some events of one instruction.
fn close_ring(rng: &mut Random, record: &mut Record) {
    let n = record.events.len();
    if n == 0 {
        return;
    }
    let start = rng.below(n);
    let mut ring: Vec<u8> =
        (0..n).filter(|&e| record.same_instruction(start, e)).map(|e| e as u8).collect();
    rng.shuffle(&mut ring);
    ring.truncate(1 + rng.below(ring.len()));
    for i in 0..ring.len() {
        rng.insert(&mut record.causality, (ring[i], ring[(i + 1) % ring.len()]));
    }
}

fn turn_pair(rng: &mut Random, record: &mut Record) {
    if let Some((a, b)) = rng.some(&record.causality) {
        rng.insert(&mut record.causality, (b, a));
    }
}

/// Drops a pair that rule 12 asks for.
fn drop_due_pair(rng: &mut Random, record: &mut Record) {
    let is_due = |pair: &(u8, u8)| pair_is_due(record, pair.0 as usize, pair.1 as usize);
    let due: Vec<(u8, u8)> = record.causality.iter().copied().filter(is_due).collect();
    if let Some(pair) = rng.some(&due) {
        record.causality.retain(|&kept| kept != pair);
    }
}

/// A new section 4 entry, which also gets its place in section 7.
fn insert_locked(rng: &mut Random, record: &mut Record, name: (u8, u16)) {
    let at = rng.place(record.locked.len());
    record.locked.insert(at, name);
    for entry in &mut record.locked_order {
        *entry += u8::from(*entry as usize >= at);
    }
    rng.insert(&mut record.locked_order, at as u8);
}

/// Locks an instruction without events, its name near that of another.
fn lock_nothing(rng: &mut Random, record: &mut Record) {
    let indexes: Vec<u16> = record.events.iter().map(|e| e.index).collect();
    let index = rng.some(&indexes).unwrap_or(0);
    let near = [index, index.swap_bytes(), index.wrapping_add(1), index ^ 0x100, 65535];
    let name = (rng.below(record.processors as usize) as u8, rng.pick(&near));
    if record.events.iter().all(|e| e.instruction() != name) {
        insert_locked(rng, record, name);
    }
}

fn lock_again(rng: &mut Random, record: &mut Record) {
    if let Some(name) = rng.some(&record.locked) {
        insert_locked(rng, record, name);
    }
}

/// Makes a list hold some number too often or too seldom.
fn miscount(rng: &mut Random, list: &mut Vec<u8>, bound: usize) {
    if bound == 0 {
        return;
    }
    let any = rng.below(bound) as u8;
    match rng.below(4) {
        0 => rng.insert(list, any),
        1 if !list.is_empty() => {
            let again = rng.pick(list);
            rng.insert(list, again);
        }
        2 if !list.is_empty() => {
            let at = rng.below(list.len());
            list[at] = any;
        }
        _ if !list.is_empty() => {
            let at = rng.place(list.len() - 1);
            list.remove(at);
        }
        _ => {}
    }
}

fn miscount_view(rng: &mut Random, record: &mut Record) {
    let p = rng.below(record.views.len());
    miscount(rng, &mut record.views[p], record.events.len());
}

fn miscount_stores(rng: &mut Random, record: &mut Record) {
    miscount(rng, &mut record.store_order, record.events.len());
}

fn miscount_locked(rng: &mut Random, record: &mut Record) {
    miscount(rng, &mut record.locked_order, record.locked.len());
}

/// How many of the things that section 8 asks of a pair are not so.
fn misfits(w: &Event, r: &Event) -> usize {
    let asked = [w.is_write(), !r.is_write(), w.same_place(r), w.value == r.value];
    asked.iter().filter(|&&is_so| !is_so).count()
}

/// Whether the processor of b sees a before b.
fn stand_in_order(record: &Record, a: usize, b: usize) -> bool {
    let view = &record.views[record.events[b].processor as usize];
    let place = |e: usize| view.iter().position(|&seen| seen as usize == e);
    place(a).is_some_and(|at| Some(at) < place(b))
}

/// A source that does not fit its read in one thing, mostly one that else
/// could be.
fn add_unfit_pair(rng: &mut Random, record: &mut Record) {
    let any = rng.once_in(3);
    let unfit = |w: usize, r: usize| {
        let one_thing = misfits(&record.events[w], &record.events[r]) == 1;
        one_thing && (any || stand_in_order(record, w, r))
    };
    if let Some(pair) = some_pair(rng, record, unfit) {
        rng.insert(&mut record.reads_from, pair);
    }
}

/// Another value, in one bit, for an event of a section 8 pair.
fn change_read_value(rng: &mut Random, record: &mut Record) {
    if let Some((w, r)) = rng.some(&record.reads_from) {
        let e = rng.pick(&[w, r]);
        record.events[e as usize].value ^= 1 << rng.below(32);
    }
}

/// Swaps two neighbours of a list, or moves one item anywhere.
fn disorder(rng: &mut Random, list: &mut Vec<u8>) {
    if list.len() < 2 {
        return;
    }
    if rng.once_in(2) {
        let at = rng.below(list.len() - 1);
        list.swap(at, at + 1);
    } else {
        let item = list.remove(rng.below(list.len()));
        rng.insert(list, item);
    }
}

fn disorder_view(rng: &mut Random, record: &mut Record) {
    let p = rng.below(record.views.len());
    disorder(rng, &mut record.views[p]);
}

fn disorder_stores(rng: &mut Random, record: &mut Record) {
    disorder(rng, &mut record.store_order);
}

fn disorder_locked(rng: &mut Random, record: &mut Record) {
    disorder(rng, &mut record.locked_order);
}

/// The writes of a read's place that its processor sees before some event.
fn writes_before(record: &Record, r: u8, end: u8) -> Vec<u8> {
    let read = &record.events[r as usize];
    let view = &record.views[read.processor as usize];
    let is_write_there = |e: &u8| {
        let event = &record.events[*e as usize];
        event.is_write() && event.same_place(read)
    };
    view.iter().copied().take_while(|&e| e != end).filter(is_write_there).collect()
}

/// A read takes a write that its processor sees before the one it took. The
/// older write gets the value, unless another read takes it.
fn take_older_source(rng: &mut Random, record: &mut Record) {
    let Some((w, r)) = rng.some(&record.reads_from) else {
        return;
    };
    let Some(older) = rng.some(&writes_before(record, r, w)) else {
        return;
    };
    if record.reads_from.iter().all(|pair| pair.0 != older) {
        record.events[older as usize].value = record.events[r as usize].value;
    }
    if !rng.once_in(3) {
        record.reads_from.retain(|&pair| pair != (w, r));
    }
    rng.insert(&mut record.reads_from, (older, r));
}

/// Gives all events one value, and each read any source that its processor sees
/// before it, or none: evidence to choose from.
fn scramble_sources(rng: &mut Random, record: &mut Record) {
    record.events.iter_mut().for_each(|e| e.value = 1);
    record.initial.iter_mut().for_each(|i| i.value = 1);
    record.reads_from.clear();
    for r in 0..record.events.len() as u8 {
        let sources = match record.events[r as usize].is_write() {
            true => vec![],
            false => writes_before(record, r, r),
        };
        if let (false, Some(w)) = (rng.once_in(4), rng.some(&sources)) {
            rng.insert(&mut record.reads_from, (w, r));
        }
    }
}

/// A processor sees a store before a load of its address, not after it.
fn see_store_early(rng: &mut Random, record: &mut Record) {
    let p = rng.below(record.views.len());
    let view = &record.views[p];
    let mut moves = Vec::new();
    for (i, &r) in view.iter().enumerate() {
        for (j, &x) in view.iter().enumerate().skip(i + 1) {
            let (read, store) = (&record.events[r as usize], &record.events[x as usize]);
            if !read.is_write() && store.kind == STORE && store.same_place(read) {
                moves.push((i, j));
            }
        }
    }
    if let Some((to, from)) = rng.some(&moves) {
        let store = record.views[p].remove(from);
        record.views[p].insert(to, store);
    }
}

fn drop_source(rng: &mut Random, record: &mut Record) {
    if let Some(r) = some_read(rng, record, true) {
        record.reads_from.retain(|pair| pair.1 != r);
    }
}

/// Drops a read's source, and gives its place the value at first.
fn hide_source(rng: &mut Random, record: &mut Record) {
    let Some(r) = some_read(rng, record, true) else {
        return;
    };
    record.reads_from.retain(|pair| pair.1 != r);
    let read = record.events[r as usize];
    record.initial.retain(|i| !i.is_of(&read));
    record.initial.push(read.initially());
}

/// Drops the initial value of a read without a source.
fn drop_initial(rng: &mut Random, record: &mut Record) {
    if let Some(r) = some_read(rng, record, false) {
        let read = record.events[r as usize];
        record.initial.retain(|i| !i.is_of(&read));
    }
}

/// Changes one bit of an initial value, or of another entry before it.
fn change_initial_bit(rng: &mut Random, record: &mut Record) {
    if record.initial.is_empty() {
        return;
    }
    let at = rng.below(record.initial.len());
    if rng.once_in(2) {
        record.initial.insert(at, record.initial[at]);
    }
    record.initial[at].value ^= 1 << rng.below(32);
}

/// Breaks up a locked instruction in some view that has one.
fn break_up_some(rng: &mut Random, record: &mut Record) {
    let before = record.views.clone();
    for _ in 0..8 {
        let p = rng.below(record.views.len());
        break_up(rng, record, p);
        if record.views != before {
            return;
        }
    }
}
