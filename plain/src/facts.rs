//! Each event's facts, gathered once into sets.

use crate::bits::{Ascending, Rows};
use crate::reading::{head, value};

/// Register places come after the memory places: 64 and up, 16 a processor.
const FIRST_REGISTER: usize = 64;
/// No address: it is not divisible by 4.
const NO_ADDRESS: u32 = 1;

/// The places of events by number. The number of a memory place is its slot in
/// an open hash table of addresses.
pub struct Places {
    number_of: [u8; 64],
    events: [u64; 128],
    address: [u32; 64],
}

impl Places {
    #[inline(always)]
    pub fn none() -> Places {
        Places { number_of: [0; 64], events: [0; 128], address: [NO_ADDRESS; 64] }
    }

    /// The number of the place an event is at.
    #[inline(always)]
    pub fn number_of(&self, e: usize) -> usize {
        (self.number_of[e & 63] & 127) as usize
    }

    /// The events at the place of an event.
    #[inline(always)]
    pub fn same(&self, e: usize) -> u64 {
        self.events[self.number_of(e)]
    }

    /// The slot of an address, or a free one; none if all hold other addresses.
    #[inline(always)]
    fn slot(&self, address: u32) -> Option<usize> {
        let start = (address.wrapping_mul(0x9e37_79b1) >> 26) as usize;
        if self.address[start] == address {
            return Some(start);
        }
        (start..start + 64)
            .map(|probe| probe & 63)
            .find(|&slot| [address, NO_ADDRESS].contains(&self.address[slot]))
    }

    /// Puts an event at a memory place.
    #[inline(always)]
    fn put_in_memory(&mut self, e: usize, bit: u64, address: u32) {
        let slot = self.slot(address).unwrap_or(0);
        self.address[slot] = address;
        self.events[slot] |= bit;
        self.number_of[e] = slot as u8;
    }

    /// Puts an event at a register; gives the events there before it.
    #[inline(always)]
    fn put_in_register(&mut self, e: usize, bit: u64, number: usize) -> u64 {
        let events = &mut self.events[number & 127];
        let earlier = *events;
        *events |= bit;
        self.number_of[e] = number as u8;
        earlier
    }

    /// What each place holds at first, by `holding`; 0 where it has no initial
    /// value. Backwards, so that the first entry for a place stays. An address
    /// that no event names has a free slot or none, which is nobody's place.
    #[inline(always)]
    pub fn initial_values(&self, initial: &[[u8; 12]]) -> [u64; 128] {
        let mut held = [0; 128];
        for entry in initial.iter().rev() {
            let head = head(entry);
            let place = (head >> 32) as u32;
            if head & 0x100 != 0 {
                held[register((head & 3) as usize, place)] = holding(value(entry));
            } else if let Some(slot) = self.slot(place) {
                held[slot] = holding(value(entry));
            }
        }
        held
    }
}

/// The number of a register place.
#[inline(always)]
fn register(processor: usize, number: u32) -> usize {
    FIRST_REGISTER + processor * 16 + (number & 15) as usize
}

/// What a place holds that holds this value; a place that holds none is 0.
#[inline(always)]
pub fn holding(value: u32) -> u64 {
    1 << 32 | value as u64
}

/// What the rules ask about events other than places. Instructions get numbers
/// as they are first met.
pub struct Facts {
    /// The events of each processor.
    pub own: [u64; 4],
    /// The events of each kind.
    kind: [u64; 4],
    /// Register events with a later one of the same instruction and register.
    pub shared: u64,
    pub instruction_of: [u8; 64],
    instruction: [u64; 64],
    instructions: usize,
    /// The index of each instruction.
    index: [u16; 64],
    /// Each processor's instructions in program order, how many there are, and
    /// the index after the last.
    program: [[u8; 64]; 4],
    length: [usize; 4],
    next_index: [u32; 4],
}

impl Facts {
    #[inline(always)]
    pub fn none() -> Facts {
        Facts {
            own: [0; 4],
            kind: [0; 4],
            shared: 0,
            instruction_of: [0; 64],
            instruction: [0; 64],
            instructions: 0,
            index: [0; 64],
            program: [[0; 64]; 4],
            length: [0; 4],
            next_index: [0; 4],
        }
    }

    /// Takes in all events. The structure rules ask for no memory places; with
    /// `MEMORY` unset these are left out.
    #[inline(never)]
    pub fn gather<const MEMORY: bool>(&mut self, places: &mut Places, events: &[[u8; 12]]) {
        let mut name = !0;
        let mut instruction = 0;
        let mut bit = 1;
        for (e, entry) in events[..events.len().min(64)].iter().enumerate() {
            let head = head(entry);
            let processor = (head & 3) as usize;
            self.own[processor] |= bit;
            self.kind[(head >> 8 & 3) as usize] |= bit;
            // Events of one instruction mostly stand together.
            if name != head & 0xffff_00ff {
                name = head & 0xffff_00ff;
                instruction = self.instruction_number(processor, (head >> 16) as u16);
            }
            self.instruction_of[e] = instruction as u8;
            let place = (head >> 32) as u32;
            if head & 0x200 != 0 {
                let there = places.put_in_register(e, bit, register(processor, place));
                self.shared |= there & self.instruction[instruction];
            } else if MEMORY {
                places.put_in_memory(e, bit, place);
            }
            self.instruction[instruction] |= bit;
            bit <<= 1;
        }
    }

    /// The number of the instruction with this index, a new one if it is new.
    #[inline(always)]
    fn instruction_number(&mut self, processor: usize, index: u16) -> usize {
        if (index as u32) < self.next_index[processor] {
            return self.number_out_of_order(processor, index);
        }
        self.next_index[processor] = index as u32 + 1;
        self.add_instruction(processor, self.length[processor], index)
    }

    #[inline(always)]
    fn add_instruction(&mut self, processor: usize, at: usize, index: u16) -> usize {
        let number = self.instructions & 63;
        self.instructions += 1;
        self.index[number] = index;
        self.program[processor][at & 63] = number as u8;
        self.length[processor] += 1;
        number
    }

    /// The same for an index not above all before it.
    #[cold]
    fn number_out_of_order(&mut self, processor: usize, index: u16) -> usize {
        let at = self.position(processor, index);
        let found = (self.program[processor][at & 63] & 63) as usize;
        if self.index[found] == index {
            return found;
        }
        let length = self.length[processor];
        self.program[processor].copy_within(at..length.min(63), at + 1);
        self.add_instruction(processor, at, index)
    }

    /// How many instructions of the processor have a lower index.
    #[inline(always)]
    fn position(&self, processor: usize, index: u16) -> usize {
        let program = &self.program[processor & 3];
        let (mut low, mut high) = (0, self.length[processor & 3]);
        while low < high {
            let middle = (low + high) / 2;
            if self.index[(program[middle & 63] & 63) as usize] < index {
                low = middle + 1;
            } else {
                high = middle;
            }
        }
        low
    }

    /// The events of a processor's instruction with this index.
    #[inline(always)]
    pub fn events_of(&self, processor: usize, index: u16) -> u64 {
        let at = self.position(processor, index);
        let found = (self.program[processor & 3][at & 63] & 63) as usize;
        if at < self.length[processor & 3] && self.index[found] == index {
            self.instruction[found]
        } else {
            0
        }
    }

    /// The events of the instruction of an event.
    #[inline(always)]
    pub fn same_instruction(&self, e: usize) -> u64 {
        self.instruction[(self.instruction_of[e & 63] & 63) as usize]
    }

    #[inline(always)]
    pub fn loads(&self) -> u64 {
        self.kind[0]
    }

    #[inline(always)]
    pub fn stores(&self) -> u64 {
        self.kind[1]
    }

    /// Loads and register reads.
    #[inline(always)]
    pub fn reads(&self) -> u64 {
        self.kind[0] | self.kind[2]
    }

    /// Stores and register writes.
    #[inline(always)]
    pub fn writes(&self) -> u64 {
        self.kind[1] | self.kind[3]
    }

    /// The processor's own events and all stores.
    #[inline(always)]
    pub fn seen_by(&self, processor: usize) -> u64 {
        self.own[processor & 3] | self.stores()
    }

    /// Adds preserved order to rows. Each program is walked from its end, so
    /// that `later` holds what the instruction at hand is earlier than.
    #[inline(never)]
    pub fn add_preserved_order(&self, places: &Places, any_locked: u64, rows: &mut Rows) {
        let (loads, stores) = (self.loads(), self.stores());
        let memory = loads | stores;
        for (program, length) in self.program.iter().zip(self.length) {
            let mut later = 0;
            for number in program[..length.min(64)].iter().rev() {
                let instruction = self.instruction[(number & 63) as usize];
                let by_lock = if any_locked & instruction != 0 { memory } else { 0 };
                for load in Ascending(instruction & loads) {
                    rows[load] |= later & (memory | any_locked);
                }
                for store in Ascending(instruction & stores) {
                    rows[store] |= later & (stores | places.same(store) | any_locked | by_lock);
                }
                for register in Ascending(instruction & !memory) {
                    rows[register] |= later & (places.same(register) | by_lock);
                }
                later |= instruction;
            }
        }
    }
}
