//! Holds the proved judge to the independent implementation on random records,
//! lists and buffers: crosscheck CASES [SEED]. A case is a record, a list and the
//! lengths of the buffers; all operations are compared on it.

use plain::sample::Random;
use plain::{changes, marked, runs};
use std::collections::BTreeMap;
use std::fmt::Debug;
use std::time::Instant;

/// A record's bytes, a list, and what is lent.
#[derive(Debug)]
struct Case {
    record: Vec<u8>,
    list: Vec<u16>,
    entries: usize,
    bytes: usize,
    words: usize,
    processor: u16,
}

/// How often each operation gave each answer.
type Tally = BTreeMap<(&'static str, u16), u64>;

fn size(rng: &mut Random) -> &'static runs::Size {
    match rng.below(40) {
        0 => &runs::LARGE,
        1 => &runs::WIDE,
        2..=9 => &runs::MIDDLE,
        10..=19 => &runs::NARROW,
        _ => &runs::SMALL,
    }
}

/// The record of a run, changed a little or not at all, and a list near its sequence.
fn record(rng: &mut Random) -> (Vec<u8>, Vec<u16>) {
    let size = size(rng);
    let (mut record, list) = runs::from_run(rng, size);
    let list = runs::near(rng, &record, &list);
    for _ in 0..rng.pick(&[0, 0, 1, 1, 2]) {
        match rng.once_in(2) {
            true => changes::change(rng, &mut record),
            false => changes::late_change(rng, &mut record),
        }
    }
    (record.bytes(), list)
}

fn case(rng: &mut Random) -> Case {
    let (mut record, list) = record(rng);
    match rng.below(16) {
        0..=2 => changes::damage(rng, &mut record),
        3 => record = changes::random_bytes(rng),
        _ => {}
    }
    let n = record.get(2).map_or(0, |&n| n as usize);
    Case {
        entries: rng.pick(&[65, 65, 65, 65, 66, 80, 64, 1, 0]),
        bytes: rng.pick(&[2346, 2346, 2346, 2347, 2400, 2345, 0]),
        words: rng.pick(&[64, 64, n, n + 1, n.saturating_sub(1), 300, 0]),
        processor: rng.pick(&[0, 0, 1, 2, 3, 4, 5, 255, 256, 65535]),
        record,
        list,
    }
}

/// Holds one operation's results to each other.
fn hold<T: PartialEq + Debug>(
    tally: &mut Tally,
    operation: &'static str,
    judged: (u16, T),
    expected: (u16, T),
) -> Result<(), String> {
    if judged != expected {
        return Err(format!("{operation}: the judge gave {judged:?}, the other {expected:?}"));
    }
    *tally.entry((operation, judged.0)).or_default() += 1;
    Ok(())
}

/// The typed check against the plain one's answer.
fn typed(record: &[u8]) -> u16 {
    let mut evidence = reefmitten::Evidence::new();
    match reefmitten::check(record, &mut evidence) {
        Ok(()) => 0,
        Err(refusal) => refusal.rule().number(),
    }
}

fn compare(c: &Case, tally: &mut Tally) -> Result<(), String> {
    let (s, l) = (&c.record[..], &c.list[..]);
    hold(tally, "check", compare::check(s, c.entries), marked::check(s, c.entries))?;
    hold(tally, "typed check", (typed(s), ()), (marked::check(s, 65).0, ()))?;
    hold(tally, "replay", compare::replay(s, l, c.entries), marked::replay(s, l, c.entries))?;
    hold(tally, "read-off", compare::read_off(s, l, c.bytes), marked::read_off(s, l, c.bytes))?;
    let table = (compare::order_table(s, c.words), marked::order_table(s, c.words));
    hold(tally, "order table", table.0, table.1)?;
    hold(tally, "view", compare::view(s, c.processor), marked::view(s, c.processor))?;
    hold(tally, "reader", compare::reader(s), marked::reader(s))
}

fn main() {
    let mut numbers = std::env::args().skip(1).map(|word| word.parse::<u64>());
    let (cases, seed) = match (numbers.next(), numbers.next(), numbers.next()) {
        (Some(Ok(cases)), None, None) => (cases, 1),
        (Some(Ok(cases)), Some(Ok(seed)), None) => (cases, seed),
        _ => {
            eprintln!("crosscheck CASES [SEED]");
            std::process::exit(2);
        }
    };
    let begun = Instant::now();
    let mut rng = Random(seed);
    let mut tally = Tally::new();
    for number in 0..cases {
        let case = case(&mut rng);
        if let Err(what) = compare(&case, &mut tally) {
            println!("case {number} of seed {seed}: {what}\n{case:?}");
            std::process::exit(1);
        }
    }
    for ((operation, answer), count) in &tally {
        println!("{operation} {answer} {count}");
    }
    println!("{cases} cases, 0 differ, {:.1} s", begun.elapsed().as_secs_f64());
}
