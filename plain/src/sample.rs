//! Records written out for tools and tests. The operations use none of this,
//! nor of the modules above it.

use crate::reading::read;
use crate::{marked, EVIDENCE_ENTRIES, LONGEST_RECORD};

pub const LOAD: u8 = 0;
pub const STORE: u8 = 1;
pub const READ: u8 = 2;
pub const WRITE: u8 = 3;

/// An event of section 2.
#[derive(Clone, Copy, Debug, PartialEq)]
pub struct Event {
    pub processor: u8,
    pub kind: u8,
    pub index: u16,
    pub place: u32,
    pub value: u32,
}

/// An initial value of section 5.
#[derive(Clone, Copy, Debug, PartialEq)]
pub struct Initial {
    pub processor: u8,
    pub class: u8,
    pub place: u32,
    pub value: u32,
}

impl Event {
    /// Whether it is a load or a store.
    pub fn is_memory(&self) -> bool {
        self.kind < READ
    }

    /// Whether it is a store or a register write.
    pub fn is_write(&self) -> bool {
        self.kind == STORE || self.kind == WRITE
    }

    /// Its instruction, as section 4 would name it.
    pub fn instruction(&self) -> (u8, u16) {
        (self.processor, self.index)
    }

    pub fn same_place(&self, other: &Event) -> bool {
        let same_file = self.is_memory() || self.processor == other.processor;
        self.is_memory() == other.is_memory() && self.place == other.place && same_file
    }

    /// An initial value for its place, the one that it has itself.
    pub fn initially(&self) -> Initial {
        match self.is_memory() {
            true => memory(self.place, self.value),
            false => register(self.processor, self.place, self.value),
        }
    }

    /// Whether section 8 may name it as the source of the other.
    pub fn feeds(&self, other: &Event) -> bool {
        let write_and_read = self.is_write() && !other.is_write();
        write_and_read && self.same_place(other) && self.value == other.value
    }
}

impl Initial {
    /// Whether it is an initial value of the event's place.
    pub fn is_of(&self, e: &Event) -> bool {
        let class = u8::from(!e.is_memory());
        let same_file = e.is_memory() || self.processor == e.processor;
        self.class == class && self.place == e.place && same_file
    }
}

/// A record by its entries; nothing in it need be in range.
#[derive(Clone, Debug, Default, PartialEq)]
pub struct Record {
    pub processors: u8,
    pub events: Vec<Event>,
    pub causality: Vec<(u8, u8)>,
    pub locked: Vec<(u8, u16)>,
    pub initial: Vec<Initial>,
    pub store_order: Vec<u8>,
    pub locked_order: Vec<u8>,
    pub reads_from: Vec<(u8, u8)>,
    pub views: Vec<Vec<u8>>,
}

fn push_count(bytes: &mut Vec<u8>, count: usize) {
    bytes.extend((count as u16).to_le_bytes());
}

fn push_pairs(bytes: &mut Vec<u8>, pairs: &[(u8, u8)]) {
    push_count(bytes, pairs.len());
    for &(a, b) in pairs {
        bytes.extend([a, b]);
    }
}

fn push_numbers(bytes: &mut Vec<u8>, numbers: &[u8]) {
    push_count(bytes, numbers.len());
    bytes.extend(numbers);
}

impl Record {
    /// The record in form 1.
    pub fn bytes(&self) -> Vec<u8> {
        let mut bytes = vec![1, self.processors];
        push_count(&mut bytes, self.events.len());
        for e in &self.events {
            bytes.extend([e.processor, e.kind]);
            bytes.extend(e.index.to_le_bytes());
            bytes.extend(e.place.to_le_bytes());
            bytes.extend(e.value.to_le_bytes());
        }
        push_pairs(&mut bytes, &self.causality);
        push_count(&mut bytes, self.locked.len());
        for &(processor, index) in &self.locked {
            bytes.extend([processor, 0]);
            bytes.extend(index.to_le_bytes());
        }
        push_count(&mut bytes, self.initial.len());
        for i in &self.initial {
            bytes.extend([i.processor, i.class, 0, 0]);
            bytes.extend(i.place.to_le_bytes());
            bytes.extend(i.value.to_le_bytes());
        }
        push_numbers(&mut bytes, &self.store_order);
        push_numbers(&mut bytes, &self.locked_order);
        push_pairs(&mut bytes, &self.reads_from);
        push_count(&mut bytes, self.views.len());
        for view in &self.views {
            push_numbers(&mut bytes, view);
        }
        bytes
    }
}

/// What the rules ask of events, for records that are in range.
impl Record {
    pub fn same_instruction(&self, a: usize, b: usize) -> bool {
        self.events[a].instruction() == self.events[b].instruction()
    }

    /// Whether section 4 names the event's instruction.
    pub fn is_locked(&self, e: usize) -> bool {
        self.locked.contains(&self.events[e].instruction())
    }

    /// Whether section 3 or preserved order holds from a to b.
    pub fn keeps(&self, a: usize, b: usize) -> bool {
        if self.causality.contains(&(a as u8, b as u8)) {
            return true;
        }
        let (x, y) = (&self.events[a], &self.events[b]);
        let memory_pair = x.is_memory() && y.is_memory();
        let kept = x.same_place(y)
            || (memory_pair && (x.kind == LOAD || y.kind == STORE))
            || (x.is_memory() && self.is_locked(b))
            || (self.is_locked(a) && y.is_memory());
        x.processor == y.processor && x.index < y.index && kept
    }

    /// Whether the processor sees the event.
    pub fn sees(&self, p: usize, e: usize) -> bool {
        self.events[e].processor as usize == p || self.events[e].kind == STORE
    }

    /// The value that section 5 gives the event's place.
    pub fn initial_value(&self, e: &Event) -> Option<u32> {
        self.initial.iter().find(|i| i.is_of(e)).map(|i| i.value)
    }

    /// The record with sections 6 to 9 read off from a sequence that has each
    /// locked instruction together.
    pub fn with_witness_of(&self, list: &[u16]) -> Record {
        let views = vec![vec![]; self.processors as usize];
        let bytes = Record { views, ..self.clone() }.bytes();
        let (answer, written) = marked::read_off(&bytes, list, LONGEST_RECORD);
        let (0, Ok(read)) = (answer, read(&written)) else {
            panic!("no read-off of {self:?} by {list:?}: {answer}");
        };
        Record {
            store_order: read.store_order.to_vec(),
            locked_order: read.locked_order.to_vec(),
            reads_from: read.reads_from.iter().map(|&[w, r]| (w, r)).collect(),
            views: read.views().iter().map(|view| view.to_vec()).collect(),
            ..self.clone()
        }
    }

    /// What the check says of it.
    pub fn checked(&self) -> (u16, Vec<u16>) {
        marked::check(&self.bytes(), EVIDENCE_ENTRIES)
    }

    /// What the replay says of it by a list.
    pub fn replayed(&self, list: &[u16]) -> (u16, Vec<u16>) {
        marked::replay(&self.bytes(), list, EVIDENCE_ENTRIES)
    }
}

/// An event, its fields in layout order.
pub fn event(processor: u8, kind: u8, index: u16, place: u32, value: u32) -> Event {
    Event { processor, kind, index, place, value }
}

/// An initial value of a memory place.
pub fn memory(place: u32, value: u32) -> Initial {
    Initial { processor: 0, class: 0, place, value }
}

/// An initial value of a register.
pub fn register(processor: u8, place: u32, value: u32) -> Initial {
    Initial { processor, class: 1, place, value }
}

/// Slot case S1: two processors claim a slot each and look for the other's.
pub fn s1() -> Record {
    Record {
        processors: 2,
        events: vec![
            event(0, STORE, 0, 100, 1),
            event(0, LOAD, 1, 200, 0),
            event(1, STORE, 0, 200, 1),
            event(1, LOAD, 1, 100, 0),
        ],
        initial: vec![memory(100, 0), memory(200, 0)],
        store_order: vec![0, 2],
        views: vec![vec![0, 1, 2], vec![2, 3, 0]],
        ..Record::default()
    }
}

/// Slot case S2: S1 with both claims locked.
pub fn s2() -> Record {
    Record { locked: vec![(0, 0), (1, 0)], locked_order: vec![0, 1], ..s1() }
}

/// All orders of 0 to 3, the least first: the sequences of S1 and S2.
pub fn orders_of_four() -> Vec<Vec<u16>> {
    let mut orders = Vec::new();
    for number in 0..256u16 {
        let list: Vec<u16> = (0..4).map(|place| number >> (6 - 2 * place) & 3).collect();
        if (0..4).all(|e| list.contains(&e)) {
            orders.push(list);
        }
    }
    orders
}

/// Two stores and a load of one address; the load takes the first store.
pub fn overwritten() -> Record {
    Record {
        processors: 1,
        events: vec![
            event(0, STORE, 0, 100, 1),
            event(0, STORE, 1, 100, 1),
            event(0, LOAD, 2, 100, 1),
        ],
        store_order: vec![0, 1],
        reads_from: vec![(0, 2)],
        views: vec![vec![0, 1, 2]],
        ..Record::default()
    }
}

/// A locked instruction of two stores, and a store by another processor.
pub fn torn() -> Record {
    Record {
        processors: 2,
        events: vec![
            event(0, STORE, 0, 100, 1),
            event(0, STORE, 0, 104, 1),
            event(1, STORE, 0, 108, 1),
        ],
        locked: vec![(0, 0)],
        store_order: vec![0, 1, 2],
        locked_order: vec![0],
        views: vec![vec![0, 1, 2], vec![0, 2, 1]],
        ..Record::default()
    }
}

/// A small seeded generator (splitmix64).
pub struct Random(pub u64);

impl Random {
    pub fn word(&mut self) -> u64 {
        self.0 = self.0.wrapping_add(0x9e37_79b9_7f4a_7c15);
        let mut z = self.0;
        z = (z ^ (z >> 30)).wrapping_mul(0xbf58_476d_1ce4_e5b9);
        z = (z ^ (z >> 27)).wrapping_mul(0x94d0_49bb_1331_11eb);
        z ^ (z >> 31)
    }

    /// A number below the bound, which is not 0.
    pub fn below(&mut self, bound: usize) -> usize {
        (self.word() % bound as u64) as usize
    }

    /// True once in so many times.
    pub fn once_in(&mut self, times: usize) -> bool {
        self.below(times) == 0
    }

    pub fn pick<T: Copy>(&mut self, among: &[T]) -> T {
        among[self.below(among.len())]
    }

    /// Some of these, if there are any.
    pub fn some<T: Copy>(&mut self, among: &[T]) -> Option<T> {
        (!among.is_empty()).then(|| self.pick(among))
    }

    /// A place from 0 to the bound, often one of these two.
    pub fn place(&mut self, bound: usize) -> usize {
        let any = self.below(bound + 1);
        self.pick(&[0, bound, any])
    }

    /// Inserts an item at some place, often first or last.
    pub fn insert<T>(&mut self, list: &mut Vec<T>, item: T) {
        let at = self.place(list.len());
        list.insert(at, item);
    }

    pub fn shuffle<T>(&mut self, items: &mut [T]) {
        for i in (1..items.len()).rev() {
            items.swap(i, self.below(i + 1));
        }
    }
}
