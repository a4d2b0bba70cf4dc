//! Writes records for measuring into a folder: gen FOLDER.

use plain::programs::{program, run, Share};
use plain::runs::vary_views;
use plain::sample::{event, memory, s1, s2, Random, Record, LOAD};
use plain::shapes::{roundabout, single_way};
use plain::{marked, EVIDENCE_ENTRIES};
use std::path::Path;

/// A random sequence that keeps section 3 and preserved order, with the events
/// of each locked instruction together.
fn sequence(rng: &mut Random, record: &Record) -> Vec<u16> {
    let n = record.events.len();
    let mut list: Vec<usize> = Vec::new();
    while list.len() < n {
        let start = rng.below(n);
        // All that is taken in one go: the event, or its locked instruction.
        let together: Vec<usize> = (0..n)
            .filter(|&x| match record.is_locked(start) {
                true => record.same_instruction(start, x),
                false => x == start,
            })
            .collect();
        let free = |x: usize| {
            (0..n).all(|a| list.contains(&a) || together.contains(&a) || !record.keeps(a, x))
        };
        if !list.contains(&start) && together.iter().all(|&x| free(x)) {
            list.extend(together);
        }
    }
    list.iter().map(|&e| e as u16).collect()
}

/// A valid record of four processors, each with this share of instructions, and
/// the sequence that it was run in. An exchange is locked and has four events, a
/// load or a store two.
fn valid(share: Share) -> (Record, Vec<u16>) {
    let mut rng = Random(2009);
    let mut record = program(&mut rng, 4, share);
    let list = sequence(&mut rng, &record);
    run(&mut record, &list);
    let mut record = record.with_witness_of(&list);
    assert_eq!(record.checked().0, 0);
    vary_views(&mut rng, &mut record, 40);
    (record, list)
}

/// A record whose shortest cycle has all 64 events.
fn cycle64() -> Record {
    let number: Vec<u8> = (0..64).collect();
    roundabout(&number, &single_way(64), 0, 1)
}

/// A valid record whose 64 events are loads of as many places, each with its
/// initial value: what a replay has most to look for in.
fn wide64() -> Record {
    let places = (0..64).map(|i| 4 * i);
    Record {
        processors: 1,
        events: places.clone().map(|place| event(0, LOAD, place as u16, place, 1)).collect(),
        initial: places.map(|place| memory(place, 1)).collect(),
        views: vec![(0..64).collect()],
        ..Record::default()
    }
}

fn write(folder: &str, name: &str, bytes: &[u8]) {
    std::fs::write(Path::new(folder).join(name), bytes).expect("the file can be written");
}

fn write_record(folder: &str, name: &str, bytes: &[u8]) {
    write(folder, &format!("{name}.bin"), bytes);
    let (answer, evidence) = marked::check(bytes, EVIDENCE_ENTRIES);
    println!("{name} {} bytes, answer {answer}, {} entries", bytes.len(), evidence.len());
}

/// A valid record with its sequence; and, of the largest, the same with a first
/// byte that is not the form's.
fn write_valid(folder: &str, n: usize, share: Share) {
    let (record, list) = valid(share);
    assert_eq!(record.events.len(), n);
    let list: Vec<u8> = list.iter().flat_map(|number| number.to_le_bytes()).collect();
    write(folder, &format!("valid{n}.list"), &list);
    write_record(folder, &format!("valid{n}"), &record.bytes());
    if n == 64 {
        let mut bytes = record.bytes();
        bytes[0] = 2;
        write_record(folder, "refused", &bytes);
    }
}

fn main() {
    let Some(folder) = std::env::args().nth(1) else {
        eprintln!("gen FOLDER");
        std::process::exit(2);
    };
    std::fs::create_dir_all(&folder).expect("the folder can be made");
    write_record(&folder, "s1", &s1().bytes());
    write_record(&folder, "s2", &s2().bytes());
    write_valid(&folder, 16, Share { exchanges: 0, loads: 1, stores: 1 });
    write_valid(&folder, 32, Share { exchanges: 1, loads: 1, stores: 1 });
    write_valid(&folder, 48, Share { exchanges: 1, loads: 2, stores: 2 });
    write_valid(&folder, 64, Share { exchanges: 2, loads: 2, stores: 2 });
    write_record(&folder, "cycle64", &cycle64().bytes());
    write_record(&folder, "wide64", &wide64().bytes());
}
