//! The fast operations against the naive ones on random records: the answer,
//! the evidence and every entry of the lent buffers.

mod naive;

use plain::changes::{change, damage, late_change, random_bytes};
use plain::marked;
use plain::runs::{from_run, near, Size, LARGE, MIDDLE, NARROW, SMALL, WIDE};
use plain::sample::{event, memory, s1, s2, Random, Record, LOAD};
use plain::shapes::{merged, random_pairs, relation, roundabout, single_way};
use std::collections::BTreeMap;

/// How often each answer was given.
#[derive(Default)]
struct Tally(BTreeMap<u16, usize>);

impl Tally {
    fn add(&mut self, answer: u16) {
        *self.0.entry(answer).or_default() += 1;
    }

    fn assert_each(&self, answers: &[u16], least: usize) {
        for answer in answers {
            let times = self.0.get(answer).copied().unwrap_or(0);
            assert!(times >= least, "answer {answer} only {times} times: {:?}", self.0);
        }
    }
}

fn compare_check(record: &[u8], room: usize) -> u16 {
    let fast = marked::check(record, room);
    assert_eq!(fast, naive::check(record, room), "check of {record:?}");
    fast.0
}

fn compare_lower(record: &[u8]) {
    assert_eq!(plain::form(record), naive::form(record), "form of {record:?}");
    assert_eq!(marked::structure(record), naive::structure(record), "structure of {record:?}");
}

fn compare_views(record: &[u8]) {
    for p in [0, 1, 2, 3, 4, 255, 256, 65535] {
        assert_eq!(marked::view(record, p), naive::view(record, p), "view {p} of {record:?}");
    }
}

fn compare_table(record: &[u8], room: usize) -> u16 {
    let fast = marked::order_table(record, room);
    assert_eq!(fast, naive::order_table(record, room), "order of {record:?}, room {room}");
    fast.0
}

fn compare_list(record: &[u8], list: &[u16], room: usize, out: usize) -> u16 {
    let fast = marked::replay(record, list, room);
    assert_eq!(fast, naive::replay(record, list, room), "replay of {record:?} by {list:?}");
    let written = marked::read_off(record, list, out);
    assert_eq!(written, naive::read_off(record, list, out), "read-off of {record:?} by {list:?}");
    fast.0
}

/// The entries a reader gives from each place on.
fn compare_reader(record: &[u8]) {
    let Ok(read) = naive::read(record) else {
        return;
    };
    for at in (0..record.len() + 3).chain([usize::MAX - 1, usize::MAX]) {
        let expected = read.entries.iter().copied().find(|entry| entry.1 >= at);
        assert_eq!(plain::next_entry(record, at), expected, "entry from {at} of {record:?}");
    }
}

/// Records of runs with up to `changes` changes: all operations.
fn compare_runs(seed: u64, count: usize, size: &Size, changes: usize) -> (Tally, Tally) {
    let mut rng = Random(seed);
    let (mut checks, mut replays) = (Tally::default(), Tally::default());
    for round in 0..count {
        let (mut record, list) = from_run(&mut rng, size);
        for _ in 0..rng.below(changes + 1) {
            change(&mut rng, &mut record);
        }
        let bytes = record.bytes();
        checks.add(compare_check(&bytes, 65 + rng.below(3)));
        compare_lower(&bytes);
        compare_table(&bytes, record.events.len() + rng.below(2));
        // A sequence that keeps section 3 is there only if it has no cycle.
        let ordered = naive::structure(&bytes).0 == 0;
        let list = if ordered { near(&mut rng, &record, &list) } else { list };
        replays.add(compare_list(&bytes, &list, 65 + rng.below(3), 2346 + rng.below(3)));
        if round % 16 == 0 {
            compare_views(&bytes);
            compare_reader(&bytes);
        }
    }
    (checks, replays)
}

#[test]
fn small_records() {
    let (checks, replays) = compare_runs(1, 60_000, &SMALL, 3);
    checks.assert_each(&[0, 10, 11, 12, 13, 14, 20, 21, 22, 23, 24, 25, 26, 27], 50);
    replays.assert_each(&[0, 10, 11, 12, 13, 14, 28, 29, 30, 31, 32, 33], 50);
    println!("check {:?}\nreplay {:?}", checks.0, replays.0);
}

#[test]
fn middle_records() {
    let (checks, replays) = compare_runs(2, 6_000, &MIDDLE, 3);
    checks.assert_each(&[0, 20, 21, 23, 24, 25, 26, 27], 5);
    replays.assert_each(&[0, 31, 32, 33], 5);
}

#[test]
fn large_records() {
    let (checks, replays) = compare_runs(3, 400, &LARGE, 2);
    checks.assert_each(&[0, 20, 24], 5);
    replays.assert_each(&[0], 5);
}

#[test]
fn wide_records() {
    let (checks, replays) = compare_runs(9, 400, &WIDE, 2);
    checks.assert_each(&[0, 20, 24], 5);
    replays.assert_each(&[0], 5);
}

/// Records that mostly get as far as answers 25 to 27.
#[test]
fn late_rules() {
    let mut rng = Random(10);
    let mut tally = Tally::default();
    for _ in 0..60_000 {
        let size = if rng.once_in(3) { &SMALL } else { &NARROW };
        let (mut record, _) = from_run(&mut rng, size);
        for _ in 0..1 + rng.below(4) {
            late_change(&mut rng, &mut record);
        }
        tally.add(compare_check(&record.bytes(), 65));
    }
    tally.assert_each(&[0, 24, 25, 26, 27], 200);
    println!("check {:?}", tally.0);
}

#[test]
fn locked_instructions_in_merged_views() {
    let mut rng = Random(15);
    let mut tally = Tally::default();
    for _ in 0..20_000 {
        tally.add(compare_check(&merged(&mut rng).bytes(), 65));
    }
    tally.assert_each(&[0, 27], 2_000);
}

fn compare_relations(seed: u64, count: usize, n: usize, pairs: usize) -> BTreeMap<usize, usize> {
    let mut rng = Random(seed);
    let mut lengths = BTreeMap::new();
    for _ in 0..count {
        let n = 1 + rng.below(n);
        let record = relation(n, random_pairs(&mut rng, n, pairs));
        let bytes = record.bytes();
        let fast = marked::structure(&bytes);
        assert_eq!(fast, naive::structure(&bytes), "structure of {record:?}");
        *lengths.entry(fast.1.len()).or_insert(0) += 1;
    }
    lengths
}

#[test]
fn cycles_of_small_relations() {
    let lengths = compare_relations(11, 40_000, 8, 14);
    assert!((0..=6).all(|length| lengths.contains_key(&length)), "{lengths:?}");
}

#[test]
fn cycles_of_large_relations() {
    let lengths = compare_relations(12, 1_500, 64, 90);
    assert!(lengths.keys().any(|&length| length >= 6), "{lengths:?}");
}

/// A cycle through all events of a record of 64, in any numbering.
#[test]
fn longest_cycle() {
    let mut rng = Random(13);
    for _ in 0..20 {
        let mut number: Vec<u8> = (0..64).collect();
        rng.shuffle(&mut number);
        let record = roundabout(&number, &single_way(64), 0, 1);
        assert_eq!(compare_check(&record.bytes(), 65), 24);
        assert_eq!(record.checked().1.len(), 65);
    }
}

/// As many memory places as there are events, and initial values for others.
#[test]
fn all_places_differ() {
    let mut rng = Random(14);
    for _ in 0..200 {
        let mut addresses: Vec<u32> = (0..128).map(|_| (rng.word() as u32) & !3).collect();
        if rng.once_in(2) {
            addresses = (0..128).map(|i| i << 25).collect();
        }
        let mut record = Record { processors: 1, ..Record::default() };
        for (i, &address) in addresses[..64].iter().enumerate() {
            record.events.push(event(0, LOAD, i as u16, address, 0));
        }
        rng.shuffle(&mut addresses);
        record.initial =
            addresses[..64].iter().map(|&a| memory(a, rng.below(8) as u32 / 7)).collect();
        record.views = vec![(0..64).collect()];
        let bytes = record.bytes();
        assert_eq!(compare_check(&bytes, 65), 26);
        compare_list(&bytes, &(0..64).collect::<Vec<u16>>(), 65, 2346);
    }
}

/// Larger cycles: few places and no witness of one run, so that views differ.
#[test]
fn mixed_views() {
    let mut rng = Random(4);
    let mut lengths = BTreeMap::new();
    for _ in 0..20_000 {
        let (mut record, _) = from_run(&mut rng, &SMALL);
        for view in &mut record.views {
            if rng.once_in(2) {
                rng.shuffle(view);
            }
        }
        let bytes = record.bytes();
        compare_check(&bytes, 65);
        let (answer, evidence) = marked::check(&bytes, 65);
        if answer == 24 {
            *lengths.entry(evidence.len() - 1).or_insert(0) += 1;
        }
    }
    assert!(lengths.keys().any(|&length| length >= 3), "{lengths:?}");
}

/// Replay and check agree on what is read off (with each locked instruction
/// together), and the replay names every broken one.
#[test]
fn replay_agrees_with_check_of_read_off() {
    let mut rng = Random(5);
    let mut tally = Tally::default();
    for _ in 0..20_000 {
        let (record, list) = from_run(&mut rng, &SMALL);
        let list = near(&mut rng, &record, &list);
        let bytes = record.bytes();
        let (replayed, _) = marked::replay(&bytes, &list, 65);
        let (answer, written) = marked::read_off(&bytes, &list, 2346);
        if answer == 0 {
            assert_eq!(replayed == 0, marked::check(&written, 65).0 == 0, "{bytes:?} by {list:?}");
            assert!(matches!(replayed, 0 | 32 | 33));
        } else {
            assert_eq!(replayed, answer);
        }
        tally.add(replayed);
    }
    tally.assert_each(&[0, 31, 32, 33], 50);
}

#[test]
fn damaged_bytes() {
    let mut rng = Random(6);
    let mut tally = Tally::default();
    for _ in 0..40_000 {
        let (record, list) = from_run(&mut rng, &SMALL);
        let mut bytes = record.bytes();
        for _ in 0..1 + rng.below(2) {
            damage(&mut rng, &mut bytes);
        }
        tally.add(compare_check(&bytes, 65));
        compare_lower(&bytes);
        compare_views(&bytes);
        compare_list(&bytes, &list, 65, 2346);
        compare_table(&bytes, 64);
    }
    tally.assert_each(&[0, 2, 3, 4, 5], 50);
}

#[test]
fn bytes_at_random() {
    let mut rng = Random(7);
    for _ in 0..20_000 {
        let bytes = random_bytes(&mut rng);
        compare_check(&bytes, 65);
        compare_lower(&bytes);
        compare_views(&bytes);
    }
}

/// Every cut of, and every value of every byte of the two slot records.
#[test]
fn slot_records_byte_by_byte() {
    for whole in [s1().bytes(), s2().bytes()] {
        for length in 0..whole.len() {
            compare_check(&whole[..length], 65);
            compare_lower(&whole[..length]);
        }
        for place in 0..whole.len() {
            let mut bytes = whole.clone();
            for value in 0..=255 {
                bytes[place] = value;
                compare_check(&bytes, 65);
                compare_lower(&bytes);
                compare_reader(&bytes);
            }
        }
    }
}

#[test]
fn odd_buffers() {
    let mut rng = Random(8);
    for _ in 0..2_000 {
        let (record, list) = from_run(&mut rng, &SMALL);
        let mut bytes = record.bytes();
        if rng.once_in(3) {
            damage(&mut rng, &mut bytes);
        }
        let room = rng.pick(&[0, 1, 63, 64, 65, 66, 200]);
        compare_check(&bytes, room);
        let out = rng.pick(&[0, 1, 102, 2345, 2346, 2347, 5000]);
        compare_list(&bytes, &list, room, out);
        compare_table(&bytes, rng.below(10));
    }
    assert_eq!(plain::check(&[], &mut [0; 64]), (1, 0));
    assert_eq!(plain::replay(&[], &[], &mut [0; 64]), (1, 0));
    assert_eq!(plain::read_off(&[], &[], &mut [0; 2345]), (1, 0));
    assert_eq!(plain::order_table(&[], &mut []), 2);
}
