//! Bytes that barely break the form, answers 2 to 5, and such as barely keep it.

use super::asking::Asker;
use super::bases::{Base, Pool};
use crate::changes::{damage, random_bytes};
use crate::sample::{event, memory, register, s1, Random, Record, LOAD, STORE};
use crate::shapes::{relation, stores};
use std::collections::BTreeSet;

/// A field: its place and size, the end of its entry, and values that are out
/// of its range.
struct Field {
    place: usize,
    size: usize,
    entry_end: usize,
    wrong: Vec<u32>,
}

/// Where fields and counts of a record stand.
struct Layout {
    at: usize,
    entry_end: usize,
    fields: Vec<Field>,
    /// Place and limit of each count but that of section 9.
    counts: Vec<(usize, u16)>,
}

impl Layout {
    fn count(&mut self, most: u16) {
        self.counts.push((self.at, most));
        self.at += 2;
    }

    fn entry(&mut self, size: usize) {
        self.entry_end = self.at + size;
    }

    fn field(&mut self, size: usize, wrong: &[u32]) {
        let (place, entry_end) = (self.at, self.entry_end);
        self.fields.push(Field { place, size, entry_end, wrong: wrong.to_vec() });
        self.at += size;
    }

    /// A number that must be below the bound, which is at most 64.
    fn below(&mut self, bound: usize) {
        let bound = bound as u32;
        self.field(1, &[bound, 64, 128 + bound, 255]);
    }

    fn place(&mut self, memory: bool, place: u32) {
        match memory {
            true => self.field(4, &[place + 1, place + 2, place + 3]),
            false => self.field(4, &[15, 16, 0x100 + place, place + 0x0100_0000, u32::MAX]),
        }
    }

    /// A section of numbers below the bound, `each` of them an entry.
    fn numbers(&mut self, most: u16, entries: usize, each: usize, bound: usize) {
        self.count(most);
        for _ in 0..entries {
            self.entry(each);
            for _ in 0..each {
                self.below(bound);
            }
        }
    }

    fn events(&mut self, record: &Record) {
        self.count(64);
        for e in &record.events {
            self.entry(12);
            self.below(record.processors as usize);
            self.field(1, &[4, 5, 128 + e.kind as u32, 255]);
            self.at += 2;
            self.place(e.is_memory(), e.place);
            self.at += 4;
        }
    }

    fn locked(&mut self, record: &Record) {
        self.count(16);
        for _ in &record.locked {
            self.entry(4);
            self.below(record.processors as usize);
            self.field(1, &[1, 128, 255]);
            self.at += 2;
        }
    }

    fn initial(&mut self, record: &Record) {
        self.count(64);
        for i in &record.initial {
            self.entry(12);
            self.below(if i.class == 0 { 1 } else { record.processors as usize });
            self.field(1, &[2, 3, 128 + i.class as u32, 255]);
            self.field(2, &[1, 0x100, 0x8000, 0xffff]);
            self.place(i.class == 0, i.place);
            self.at += 4;
        }
    }

    fn views(&mut self, record: &Record) {
        let p = record.processors as u32;
        self.entry(2);
        self.field(2, &[p + 1, (p + 4) % 5, 5, 6, p + 0x100, 0xffff]);
        for view in &record.views {
            self.numbers(64, view.len(), 1, record.events.len());
        }
    }

    fn of(record: &Record) -> Layout {
        let (n, g) = (record.events.len(), record.locked.len());
        let mut layout = Layout { at: 0, entry_end: 1, fields: vec![], counts: vec![] };
        layout.field(1, &[0, 2, 3, 129, 255]);
        layout.at += 1;
        layout.events(record);
        layout.numbers(128, record.causality.len(), 2, n);
        layout.locked(record);
        layout.initial(record);
        layout.numbers(64, record.store_order.len(), 1, n);
        layout.numbers(16, record.locked_order.len(), 1, g);
        layout.numbers(64, record.reads_from.len(), 2, n);
        layout.views(record);
        layout
    }

    /// Makes one of the fields wrong.
    fn break_field(&self, rng: &mut Random, bytes: &mut [u8]) {
        let field = &self.fields[rng.below(self.fields.len())];
        set(bytes, field, rng.pick(&field.wrong));
    }

    /// Puts one of the counts over its limit.
    fn break_count(&self, rng: &mut Random, bytes: &mut [u8]) {
        let (place, most) = rng.pick(&self.counts);
        set_count(bytes, place, rng.pick(&over(most)));
    }
}

fn set(bytes: &mut [u8], field: &Field, value: u32) {
    let value = value.to_le_bytes();
    bytes[field.place..field.place + field.size].copy_from_slice(&value[..field.size]);
}

fn set_count(bytes: &mut [u8], place: usize, count: u16) {
    bytes[place..place + 2].copy_from_slice(&count.to_le_bytes());
}

/// Counts over a limit: next to it, with its low byte, and far.
fn over(most: u16) -> [u16; 4] {
    [most + 1, most + 0x100, 0x100, 0xffff]
}

/// A small record with so many entries in one section, else valid where such
/// a record can be.
fn filled(section: usize, count: usize) -> Record {
    let numbers = |number: u8| vec![number; count];
    match section {
        2 => stores(count, 0),
        3 => Record {
            initial: vec![register(0, 0, 0)],
            views: vec![vec![0, 1]],
            ..relation(2, vec![(0, 1); count])
        },
        4 => stores(count, count),
        5 => Record {
            initial: (0..count).map(|i| memory(4 * i as u32, 7)).collect(),
            ..stores(1, 0)
        },
        6 => Record { store_order: numbers(0), ..stores(1, 0) },
        7 => Record { locked_order: numbers(0), ..stores(1, 1) },
        8 => Record {
            processors: 1,
            events: vec![event(0, STORE, 0, 8, 1), event(0, LOAD, 1, 8, 1)],
            store_order: vec![0],
            reads_from: vec![(0, 1); count],
            views: vec![vec![0, 1]],
            ..Record::default()
        },
        9 => Record { views: vec![numbers(0)], ..stores(1, 0) },
        _ => Record { processors: 2, views: vec![vec![0], numbers(0)], ..stores(1, 0) },
    }
}

/// Limits of sections 2 to 9, and of a second view.
const MOST: [(usize, u16); 9] =
    [(2, 64), (3, 128), (4, 16), (5, 64), (6, 64), (7, 16), (8, 64), (9, 64), (10, 64)];

/// Sections filled to their limit, one entry more, and one byte less; counts
/// over the limit with nothing behind them; and the first two bytes.
fn ask_limits(asker: &mut Asker) {
    for (section, most) in MOST {
        for count in most - 1..=most + 1 {
            let record = filled(section, count as usize);
            let list: Vec<u16> = (0..record.events.len().min(64) as u16).collect();
            let bytes = record.bytes();
            asker.ask_bytes(bytes[..bytes.len() - 1].to_vec(), &list, 2);
            asker.ask_bytes(bytes, &list, 5);
        }
        let record = filled(section, 1);
        let (place, _) = Layout::of(&record).counts[section - 2];
        for count in over(most).into_iter().chain([most]) {
            let mut bytes = record.bytes();
            set_count(&mut bytes, place, count);
            asker.ask_bytes(bytes.clone(), &[0], 2);
            bytes.truncate(place + 2);
            asker.ask_bytes(bytes, &[0], 2);
        }
    }
    for byte in [0, 1, 2, 3, 4, 5, 6, 128, 255] {
        asker.ask_bytes(vec![1, byte], &[], 2);
        for place in 0..2 {
            let mut bytes = s1().bytes();
            bytes[place] = byte;
            asker.ask_bytes(bytes, &[1, 3, 0, 2], 2);
        }
    }
}

/// A record cut at every byte.
fn ask_cuts(asker: &mut Asker, base: &Base, others: usize) {
    let bytes = base.record.bytes();
    for length in 0..bytes.len() {
        asker.ask_bytes(bytes[..length].to_vec(), &base.list, others);
    }
}

/// Each field out of range in up to so many ways.
fn ask_fields(asker: &mut Asker, base: &Base, ways: usize) {
    for field in &Layout::of(&base.record).fields {
        for &value in field.wrong.iter().take(ways) {
            let mut bytes = base.record.bytes();
            set(&mut bytes, field, value);
            asker.ask_bytes(bytes, &base.list, 1);
        }
    }
}

/// Each field out of range, and the record cut in its entry or just behind:
/// an entry is whole before its fields are judged.
fn ask_cut_fields(asker: &mut Asker, base: &Base) {
    for field in &Layout::of(&base.record).fields {
        let mut bytes = base.record.bytes();
        set(&mut bytes, field, field.wrong[0]);
        let behind = field.place + field.size;
        for length in BTreeSet::from([behind, field.entry_end - 1, field.entry_end]) {
            asker.ask_bytes(bytes[..length].to_vec(), &base.list, 1);
        }
    }
}

/// Each count over its limit.
fn ask_counts(asker: &mut Asker, base: &Base) {
    for (place, most) in Layout::of(&base.record).counts {
        for count in over(most) {
            let mut bytes = base.record.bytes();
            set_count(&mut bytes, place, count);
            asker.ask_bytes(bytes, &base.list, 2);
        }
    }
}

/// Two faults in one record: two fields, a field and a count, a field and a
/// cut.
fn ask_two_faults(asker: &mut Asker, base: &Base) {
    let rng = &mut asker.rng;
    let layout = Layout::of(&base.record);
    let mut bytes = base.record.bytes();
    layout.break_field(rng, &mut bytes);
    match rng.below(3) {
        0 => layout.break_field(rng, &mut bytes),
        1 => layout.break_count(rng, &mut bytes),
        _ => bytes.truncate(rng.below(bytes.len())),
    }
    asker.ask_bytes(bytes, &base.list, 1);
}

/// Bytes after section 9.
fn ask_left_over(asker: &mut Asker, base: &Base) {
    for more in [&[0][..], &[1], &[255], &[0, 0], &[1, 0, 0]] {
        asker.ask_bytes([&base.record.bytes(), more].concat(), &base.list, 3);
    }
    let twice = [base.record.bytes(), base.record.bytes()].concat();
    asker.ask_bytes(twice, &base.list, 3);
}

/// A record lengthened to any length up to the longest that is asked about.
fn ask_long_left_over(asker: &mut Asker) {
    for length in [2345, 2346, 2347, 3000] {
        let mut bytes = s1().bytes();
        bytes.resize(length, 0);
        asker.ask_bytes(bytes, &[1, 3, 0, 2], 2);
    }
}

/// A byte changed, a cut, a byte too many or too few.
fn ask_damaged(asker: &mut Asker, base: &Base) {
    let mut bytes = base.record.bytes();
    damage(&mut asker.rng, &mut bytes);
    asker.ask_bytes(bytes, &base.list, 1);
}

/// Records with entries in every section, the shortest first.
fn full(pool: &Pool) -> Vec<&Base> {
    let mut bases: Vec<&Base> = pool
        .bases()
        .filter(|base| {
            let record = &base.record;
            let lengths = [record.causality.len(), record.initial.len(), record.locked.len()];
            lengths.iter().all(|&length| length > 1)
                && record.reads_from.len() > 1
                && record.views.len() > 1
        })
        .collect();
    bases.sort_by_key(|base| base.record.bytes().len());
    bases
}

/// Adds all cases of the form.
pub fn ask(asker: &mut Asker, pool: &Pool) {
    ask_limits(asker);
    ask_long_left_over(asker);
    let full = full(pool);
    ask_cuts(asker, full[0], 1);
    ask_cuts(asker, full[1], 0);
    ask_fields(asker, full[2], usize::MAX);
    full[3..7].iter().for_each(|base| ask_fields(asker, base, 1));
    ask_cut_fields(asker, full[7]);
    full[8..10].iter().for_each(|base| ask_counts(asker, base));
    full[..12].iter().for_each(|base| ask_left_over(asker, base));
    for _ in 0..200 {
        let base = full[asker.rng.below(full.len().min(20))];
        ask_two_faults(asker, base);
    }
    pool.bases().for_each(|base| ask_damaged(asker, base));
    pool.large().step_by(6).for_each(|base| ask_damaged(asker, base));
    for _ in 0..200 {
        let bytes = random_bytes(&mut asker.rng);
        asker.ask_bytes(bytes, &[], 1);
    }
}
