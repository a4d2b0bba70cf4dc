//! Valid records of all sizes.

use super::asking::Asker;
use crate::programs::{self, Share};
use crate::runs::{from_run, sequence, vary_views, Size, LARGE, MIDDLE, NARROW, SMALL, WIDE};
use crate::sample::{Random, Record};

/// A valid record and a sequence that replays to 0.
pub struct Base {
    pub record: Record,
    pub list: Vec<u16>,
}

const TINY: Size = Size { events: 4, indexes: 2, places: 1, registers: 1 };
/// Many events of few places.
const CROWDED: Size = Size { events: 14, indexes: 6, places: 1, registers: 1 };
/// All events of a processor are of one instruction.
const DENSE: Size = Size { events: 8, indexes: 1, places: 2, registers: 2 };

/// Names that are exchanged in pairs, so that values, addresses and registers
/// differ in any byte, and a register has an address's number.
const VALUES: [(u32, u32); 6] =
    [(1, 2), (1, 0x100), (0, 0x8000_0000), (1, u32::MAX), (0, 0x0001_0001), (1, 0x0100_0000)];
const ADDRESSES: [(u32, u32); 6] =
    [(100, 8), (200, 12), (200, 0x0100_0064), (100, 0x1_00c8), (200, 0xffff_fffc), (100, 0)];
const REGISTERS: [(u32, u32); 4] = [(14, 12), (13, 8), (14, 0), (13, 7)];

/// The valid records that most cases start from.
pub struct Pool {
    bases: Vec<Base>,
    large: Vec<Base>,
}

impl Pool {
    pub fn grown(rng: &mut Random) -> Pool {
        let mut bases = Vec::new();
        bases.extend((0..30).map(|_| small(rng, &TINY, 0)));
        for (size, count) in [(SMALL, 180), (NARROW, 100), (DENSE, 75), (MIDDLE, 90)] {
            bases.extend((0..count).map(|_| small(rng, &size, 3)));
        }
        bases.extend((0..30).map(|_| small(rng, &CROWDED, 10)));
        for (exchanges, loads, stores) in [(1, 0, 0), (0, 1, 1), (1, 1, 0), (1, 0, 1)] {
            let share = Share { exchanges, loads, stores };
            bases.extend((0..12).map(|i| with_exchanges(rng, 2 + i / 6, share)));
        }
        let share = Share { exchanges: 2, loads: 2, stores: 2 };
        let mut large: Vec<Base> = (0..12).map(|_| with_exchanges(rng, 4, share)).collect();
        for size in [LARGE, WIDE] {
            large.extend((0..12).map(|_| valid(rng, &size, 24)));
        }
        for base in bases.iter().chain(&large) {
            assert_eq!((base.record.checked().0, base.record.replayed(&base.list).0), (0, 0));
        }
        Pool { bases, large }
    }

    pub fn pick(&self, rng: &mut Random) -> &Base {
        &self.bases[rng.below(self.bases.len())]
    }

    /// A record with as many section 8 pairs as any of some others.
    pub fn pick_rich(&self, rng: &mut Random) -> &Base {
        let picked = (0..4).map(|_| self.pick(rng));
        picked.max_by_key(|base| base.record.reads_from.len()).expect("four are picked")
    }

    pub fn bases(&self) -> impl Iterator<Item = &Base> {
        self.bases.iter()
    }

    /// Some of the records with the most events.
    pub fn large(&self) -> impl Iterator<Item = &Base> {
        self.large.iter()
    }

    pub fn ask(&self, asker: &mut Asker) {
        for base in self.bases.iter().step_by(60) {
            asker.ask_all(base.record.bytes(), &base.list);
        }
        for base in self.bases.iter().chain(&self.large) {
            asker.ask_valid(base);
        }
    }
}

/// A valid record of a run, with some events at least.
fn valid(rng: &mut Random, size: &Size, events: usize) -> Base {
    loop {
        let (record, list) = from_run(rng, size);
        if list.len() >= events && record.checked().0 == 0 {
            return Base { record, list };
        }
    }
}

/// The same with few initial values, other names, and views that differ.
fn small(rng: &mut Random, size: &Size, events: usize) -> Base {
    let mut base = valid(rng, size, events);
    let record = &mut base.record;
    drop_needless(rng, record);
    exchange_names(rng, record);
    repeat_entries(rng, record);
    if rng.once_in(2) {
        add_idle(rng, record);
    }
    shuffle_processors(rng, record);
    if rng.once_in(2) {
        vary_views(rng, record, 6);
    }
    base
}

/// A valid record of a program with locked exchanges.
fn with_exchanges(rng: &mut Random, processors: u8, share: Share) -> Base {
    let mut record = programs::program(rng, processors, share);
    let list = sequence(rng, &record, true);
    programs::run(&mut record, &list);
    let mut record = record.with_witness_of(&list);
    drop_needless(rng, &mut record);
    vary_views(rng, &mut record, 12);
    Base { record, list }
}

/// Adds processors without events, which see the stores in store order.
fn add_idle(rng: &mut Random, record: &mut Record) {
    for _ in 0..rng.below(5 - record.processors as usize) {
        record.processors += 1;
        record.views.push(record.store_order.clone());
    }
}

/// Numbers the processors anew.
fn shuffle_processors(rng: &mut Random, record: &mut Record) {
    let mut number: Vec<u8> = (0..record.processors).collect();
    rng.shuffle(&mut number);
    let renumber = |processor: &mut u8| *processor = number[*processor as usize];
    record.events.iter_mut().for_each(|e| renumber(&mut e.processor));
    record.locked.iter_mut().for_each(|entry| renumber(&mut entry.0));
    let registers = record.initial.iter_mut().filter(|i| i.class == 1);
    registers.for_each(|i| renumber(&mut i.processor));
    let views = std::mem::take(&mut record.views);
    let mut numbered: Vec<(u8, Vec<u8>)> = number.into_iter().zip(views).collect();
    numbered.sort();
    record.views = numbered.into_iter().map(|(_, view)| view).collect();
}

/// Drops most of the initial values that no read takes.
fn drop_needless(rng: &mut Random, record: &mut Record) {
    let sourced = |r: usize| record.reads_from.iter().any(|pair| pair.1 as usize == r);
    let unsourced: Vec<_> = (0..record.events.len())
        .filter(|&r| !record.events[r].is_write() && !sourced(r))
        .map(|r| record.events[r])
        .collect();
    record.initial.retain(|i| unsourced.iter().any(|r| i.is_of(r)) || rng.once_in(6));
}

fn exchanged(name: &mut u32, (one, other): (u32, u32)) {
    if *name == one {
        *name = other;
    } else if *name == other {
        *name = one;
    }
}

/// Exchanges some values, addresses and registers for others.
fn exchange_names(rng: &mut Random, record: &mut Record) {
    for _ in 0..2 {
        let (values, addresses) = (rng.pick(&VALUES), rng.pick(&ADDRESSES));
        let registers = rng.pick(&REGISTERS);
        for e in &mut record.events {
            let places = if e.is_memory() { addresses } else { registers };
            exchanged(&mut e.place, places);
            exchanged(&mut e.value, values);
        }
        for i in &mut record.initial {
            let places = if i.class == 0 { addresses } else { registers };
            exchanged(&mut i.place, places);
            exchanged(&mut i.value, values);
        }
    }
}

/// Seldom repeats a pair of section 3 or 8, which adds nothing, or an initial
/// value with another value, of which the first counts.
fn repeat_entries(rng: &mut Random, record: &mut Record) {
    if rng.once_in(6) && !record.causality.is_empty() {
        record.causality.push(rng.pick(&record.causality));
    }
    if rng.once_in(6) && !record.reads_from.is_empty() {
        record.reads_from.push(rng.pick(&record.reads_from));
    }
    if rng.once_in(6) && !record.initial.is_empty() {
        let mut again = rng.pick(&record.initial);
        again.value ^= 1 << rng.below(32);
        record.initial.push(again);
    }
}
