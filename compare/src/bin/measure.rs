//! Calls one operation of the judge or of the independent implementation on a
//! record file so many times: measure judge|plain OPERATION FILE TIMES. Prints the
//! answer and the nanoseconds of a call; under callgrind the instructions are
//! counted. The list of the replay and of the read-off is in the file's neighbour
//! with the ending `list`, or else the events as they are numbered.

use reefmitten::raw;
use std::hint::black_box;
use std::path::Path;
use std::time::Instant;

struct Lent {
    record: Vec<u8>,
    list: Vec<u16>,
    evidence: [u16; 65],
    out: [u8; 2346],
    table: [u64; 64],
}

/// The entries of the whole record, counted.
fn all_entries(record: &[u8], next: impl Fn(&[u8], usize) -> (u16, usize, usize)) -> u16 {
    let (mut at, mut count) = (0, 0);
    loop {
        let (section, place, length) = next(record, at);
        if section == 0 {
            return count;
        }
        (at, count) = (place + length, count + 1);
    }
}

fn judge(operation: &str, lent: &mut Lent) -> u16 {
    let record = black_box(&lent.record[..]);
    match operation {
        "check" => raw::check(record, &mut lent.evidence).0,
        "replay" => raw::replay(record, &lent.list, &mut lent.evidence).0,
        "read-off" => raw::read_off(record, &lent.list, &mut lent.out).0,
        "order-table" => raw::order_table(record, &mut lent.table),
        "view" => raw::view(record, 0).0,
        "open" => raw::open(record).0,
        "entries" => all_entries(record, raw::next),
        _ => panic!("no such operation"),
    }
}

fn plain(operation: &str, lent: &mut Lent) -> u16 {
    let record = black_box(&lent.record[..]);
    match operation {
        "check" => plain::check(record, &mut lent.evidence).0,
        "replay" => plain::replay(record, &lent.list, &mut lent.evidence).0,
        "read-off" => plain::read_off(record, &lent.list, &mut lent.out).0,
        "order-table" => plain::order_table(record, &mut lent.table),
        "view" => plain::view(record, 0).0,
        "open" => plain::form(record).0,
        "entries" => {
            all_entries(record, |record, at| plain::next_entry(record, at).unwrap_or((0, 0, 0)))
        }
        _ => panic!("no such operation"),
    }
}

fn list_of(file: &Path, record: &[u8]) -> Vec<u16> {
    let n = if record.len() >= 4 { u16::from_le_bytes([record[2], record[3]]) } else { 0 };
    match std::fs::read(file.with_extension("list")) {
        Ok(bytes) => bytes.chunks(2).map(|pair| u16::from_le_bytes([pair[0], pair[1]])).collect(),
        Err(_) => (0..n).collect(),
    }
}

fn main() {
    let arguments: Vec<String> = std::env::args().collect();
    let [_, who, operation, file, times] = arguments.as_slice() else {
        eprintln!("measure judge|plain OPERATION FILE TIMES");
        std::process::exit(2);
    };
    let record = std::fs::read(file).expect("the record file can be read");
    let times: u32 = times.parse().expect("TIMES is a number");
    let list = list_of(Path::new(file), &record);
    let mut lent = Lent { record, list, evidence: [0; 65], out: [0; 2346], table: [0; 64] };
    let call = if who == "judge" { judge } else { plain };
    let mut answer = 0;
    let begun = Instant::now();
    for _ in 0..times {
        answer = black_box(call(operation, &mut lent));
    }
    println!("{answer} {}", begun.elapsed().as_nanos() / u128::from(times.max(1)));
}
