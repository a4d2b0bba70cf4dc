//! Programs of loads, stores and locked exchanges between registers and memory.

use crate::sample::{event, memory, register, Random, Record, LOAD, READ, STORE, WRITE};

const PLACES: u32 = 6;
const REGISTERS: u32 = 4;

/// How many instructions of each sort a processor has.
#[derive(Clone, Copy)]
pub struct Share {
    pub exchanges: usize,
    pub loads: usize,
    pub stores: usize,
}

/// One instruction: its events but for their values, its section 3 pairs
/// counted from its first event, and whether it is locked.
struct Instruction {
    events: Vec<(u8, u32)>,
    pairs: Vec<(u8, u8)>,
    locked: bool,
}

fn some_address(rng: &mut Random) -> u32 {
    0x1000 + 4 * rng.below(PLACES as usize) as u32
}

fn some_register(rng: &mut Random) -> u32 {
    rng.below(REGISTERS as usize) as u32
}

/// A locked exchange of register and memory; the register's write comes after
/// its read.
fn exchange(rng: &mut Random) -> Instruction {
    let (register, address) = (some_register(rng), some_address(rng));
    Instruction {
        events: vec![(READ, register), (LOAD, address), (STORE, address), (WRITE, register)],
        pairs: vec![(0, 2), (1, 3), (0, 3)],
        locked: true,
    }
}

/// A load into a register.
fn load(rng: &mut Random) -> Instruction {
    Instruction {
        events: vec![(LOAD, some_address(rng)), (WRITE, some_register(rng))],
        pairs: vec![(0, 1)],
        locked: false,
    }
}

/// A store out of a register.
fn store(rng: &mut Random) -> Instruction {
    Instruction {
        events: vec![(READ, some_register(rng)), (STORE, some_address(rng))],
        pairs: vec![(0, 1)],
        locked: false,
    }
}

/// A processor's instructions in any order.
fn instructions(rng: &mut Random, share: Share) -> Vec<Instruction> {
    let mut instructions: Vec<Instruction> = Vec::new();
    instructions.extend((0..share.exchanges).map(|_| exchange(rng)));
    instructions.extend((0..share.loads).map(|_| load(rng)));
    instructions.extend((0..share.stores).map(|_| store(rng)));
    rng.shuffle(&mut instructions);
    instructions
}

/// Sections 0 to 5 of a program in which each processor has this share. Values
/// come later.
pub fn program(rng: &mut Random, processors: u8, share: Share) -> Record {
    let mut record = Record { processors, ..Record::default() };
    for p in 0..processors {
        for (index, instruction) in instructions(rng, share).iter().enumerate() {
            let base = record.events.len() as u8;
            for &(kind, place) in &instruction.events {
                record.events.push(event(p, kind, index as u16, place, 0));
            }
            record.causality.extend(instruction.pairs.iter().map(|&(a, b)| (base + a, base + b)));
            if instruction.locked {
                record.locked.push((p, index as u16));
            }
        }
    }
    for i in 0..PLACES {
        record.initial.push(memory(0x1000 + 4 * i, 1000 + i));
    }
    for p in 0..processors {
        for i in 0..REGISTERS {
            record.initial.push(register(p, i, 16 * p as u32 + i));
        }
    }
    record
}

/// Runs the sequence: each read takes what its place holds, each write what its
/// instruction has read or loaded.
pub fn run(record: &mut Record, list: &[u16]) {
    let mut state = record.initial.clone();
    for &e in list {
        let now = record.events[e as usize];
        let cell = state.iter_mut().find(|cell| cell.is_of(&now)).expect("every place is set");
        if !now.is_write() {
            record.events[e as usize].value = cell.value;
            continue;
        }
        let from = if now.kind == STORE { READ } else { LOAD };
        let source = record
            .events
            .iter()
            .find(|x| x.instruction() == now.instruction() && x.kind == from)
            .expect("every write has a source");
        cell.value = source.value;
        record.events[e as usize].value = cell.value;
    }
}
