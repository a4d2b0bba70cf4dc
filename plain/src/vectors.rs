//! The vectors: records with questions about them and what is to be answered,
//! as one file for the judge to be held to.
//!
//! Numbers are little-endian. The file is a row of groups: a record after its
//! length, then the number of questions and the questions. A question is the
//! number of its operation, what is asked with, the answer, and how many
//! entries are written and which.

mod asking;
mod bases;
mod breaks;
mod cycles;
mod faults;
mod forms;
mod lists;

use crate::marked;
use asking::Asker;
use bases::Pool;
use std::collections::BTreeMap;
use std::fmt::Write;

/// The operations in the order of their numbers, from 1.
const OPERATIONS: [&str; 6] = ["check", "replay", "read-off", "order-table", "view", "reader"];

/// A question about a record; `room` is the length of the lent buffer.
#[derive(Clone, Debug, PartialEq)]
pub enum Question {
    Check { room: usize },
    Replay { list: Vec<u16>, room: usize },
    ReadOff { list: Vec<u16>, room: usize },
    OrderTable { room: usize },
    View { processor: u16 },
    Reader,
}

/// A record and the questions about it.
pub struct Group {
    pub record: Vec<u8>,
    pub questions: Vec<Question>,
}

/// What an operation hands back: its answer, how many entries it writes, and
/// their bytes.
struct Said {
    answer: u16,
    count: usize,
    entries: Vec<u8>,
}

fn put(bytes: &mut Vec<u8>, number: usize) {
    let number = u16::try_from(number).expect("all numbers of the file have 16 bits");
    bytes.extend(number.to_le_bytes());
}

fn put_list(bytes: &mut Vec<u8>, list: &[u16]) {
    put(bytes, list.len());
    bytes.extend(list.iter().flat_map(|number| number.to_le_bytes()));
}

/// What was said, its entries spelled by `bytes_of`.
fn said<T, const SIZE: usize>(
    (answer, entries): (u16, Vec<T>),
    bytes_of: impl Fn(&T) -> [u8; SIZE],
) -> Said {
    Said { answer, count: entries.len(), entries: entries.iter().flat_map(bytes_of).collect() }
}

/// Section, place and length as they stand in the file.
fn entry_bytes(&(section, place, length): &(u16, usize, usize)) -> [u8; 6] {
    let [a, b] = section.to_le_bytes();
    let [c, d] = (place as u16).to_le_bytes();
    let [e, f] = (length as u16).to_le_bytes();
    [a, b, c, d, e, f]
}

impl Question {
    /// The place of its operation among the operations.
    fn operation(&self) -> usize {
        match self {
            Question::Check { .. } => 0,
            Question::Replay { .. } => 1,
            Question::ReadOff { .. } => 2,
            Question::OrderTable { .. } => 3,
            Question::View { .. } => 4,
            Question::Reader => 5,
        }
    }

    fn write(&self, bytes: &mut Vec<u8>) {
        bytes.push(1 + self.operation() as u8);
        match self {
            Question::Check { room } | Question::OrderTable { room } => put(bytes, *room),
            Question::Replay { list, room } | Question::ReadOff { list, room } => {
                put_list(bytes, list);
                put(bytes, *room);
            }
            Question::View { processor } => put(bytes, *processor as usize),
            Question::Reader => {}
        }
    }

    /// What is said to it about a record.
    fn judge(&self, record: &[u8]) -> Said {
        let number = |number: &u16| number.to_le_bytes();
        let byte = |byte: &u8| [*byte];
        match self {
            Question::Check { room } => said(marked::check(record, *room), number),
            Question::Replay { list, room } => said(marked::replay(record, list, *room), number),
            Question::ReadOff { list, room } => said(marked::read_off(record, list, *room), byte),
            Question::OrderTable { room } => {
                said(marked::order_table(record, *room), |word| word.to_le_bytes())
            }
            Question::View { processor } => said(marked::view(record, *processor), byte),
            Question::Reader => said(marked::reader(record), entry_bytes),
        }
    }
}

/// All groups.
pub fn groups() -> Vec<Group> {
    let mut asker = Asker::seeded(1001);
    let pool = Pool::grown(&mut asker.rng);
    asker.ask_slot_cases();
    pool.ask(&mut asker);
    forms::ask(&mut asker, &pool);
    breaks::ask(&mut asker, &pool);
    lists::ask(&mut asker, &pool);
    asker.groups
}

/// The file of the groups.
pub fn file(groups: &[Group]) -> Vec<u8> {
    let mut bytes = Vec::new();
    for group in groups {
        put(&mut bytes, group.record.len());
        bytes.extend(&group.record);
        put(&mut bytes, group.questions.len());
        for question in &group.questions {
            let said = question.judge(&group.record);
            question.write(&mut bytes);
            put(&mut bytes, said.answer as usize);
            put(&mut bytes, said.count);
            bytes.extend(said.entries);
        }
    }
    bytes
}

/// How often each operation gives each answer, a line each, and the line of a
/// run without differences.
pub fn expected(groups: &[Group]) -> String {
    let mut counts: BTreeMap<(usize, u16), usize> = BTreeMap::new();
    for group in groups {
        for question in &group.questions {
            let answer = question.judge(&group.record).answer;
            *counts.entry((question.operation(), answer)).or_default() += 1;
        }
    }
    let mut text = String::new();
    for ((operation, answer), count) in &counts {
        writeln!(text, "{} {answer} {count}", OPERATIONS[*operation]).expect("a string grows");
    }
    let all: usize = counts.values().sum();
    writeln!(text, "{all} cases, 0 differ").expect("a string grows");
    text
}
