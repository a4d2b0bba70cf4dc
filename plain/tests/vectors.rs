//! The file of the vectors, read back: each question judged once more by the
//! naive rules, and how many there are of what.

mod naive;

use plain::vectors;
use std::collections::{BTreeMap, BTreeSet};
use std::sync::OnceLock;

const CHECK: u8 = 1;
const REPLAY: u8 = 2;
const READ_OFF: u8 = 3;
const ORDER_TABLE: u8 = 4;
const VIEW: u8 = 5;
const READER: u8 = 6;
const NAMES: [&str; 6] = ["check", "replay", "read-off", "order-table", "view", "reader"];

/// A question as it stands in the file. `room` is the length of the buffer, or
/// the processor of a view question.
struct Question {
    operation: u8,
    list: Vec<u16>,
    room: usize,
    answer: u16,
    count: usize,
    entries: Vec<u8>,
}

struct Group {
    record: Vec<u8>,
    questions: Vec<Question>,
}

struct Bytes<'a> {
    rest: &'a [u8],
}

impl Bytes<'_> {
    fn part(&mut self, length: usize) -> Vec<u8> {
        let (part, rest) = self.rest.split_at(length);
        self.rest = rest;
        part.to_vec()
    }

    fn number(&mut self) -> usize {
        let part = self.part(2);
        part[0] as usize + 256 * part[1] as usize
    }

    fn list(&mut self) -> Vec<u16> {
        let length = self.number();
        (0..length).map(|_| self.number() as u16).collect()
    }

    fn question(&mut self) -> Question {
        let operation = self.part(1)[0];
        let with_list = [REPLAY, READ_OFF].contains(&operation);
        let list = if with_list { self.list() } else { vec![] };
        let room = if operation == READER { 0 } else { self.number() };
        let (answer, count) = (self.number() as u16, self.number());
        let size = [2, 2, 1, 8, 1, 6][operation as usize - 1];
        let entries = self.part(size * count);
        Question { operation, list, room, answer, count, entries }
    }

    fn group(&mut self) -> Group {
        let length = self.number();
        let record = self.part(length);
        let count = self.number();
        Group { record, questions: (0..count).map(|_| self.question()).collect() }
    }
}

fn file() -> &'static [u8] {
    static FILE: OnceLock<Vec<u8>> = OnceLock::new();
    FILE.get_or_init(|| vectors::file(&vectors::groups()))
}

fn groups() -> &'static [Group] {
    static GROUPS: OnceLock<Vec<Group>> = OnceLock::new();
    GROUPS.get_or_init(|| {
        let mut bytes = Bytes { rest: file() };
        let mut groups = Vec::new();
        while !bytes.rest.is_empty() {
            groups.push(bytes.group());
        }
        groups
    })
}

fn questions() -> impl Iterator<Item = &'static Question> {
    groups().iter().flat_map(|group| &group.questions)
}

/// How often each operation gives each answer.
fn counts() -> BTreeMap<(u8, u16), usize> {
    let mut counts = BTreeMap::new();
    for question in questions() {
        *counts.entry((question.operation, question.answer)).or_insert(0) += 1;
    }
    counts
}

fn spelled<T, const SIZE: usize>(
    (answer, entries): (u16, Vec<T>),
    bytes_of: impl Fn(&T) -> [u8; SIZE],
) -> (u16, usize, Vec<u8>) {
    (answer, entries.len(), entries.iter().flat_map(bytes_of).collect())
}

fn entries(record: &[u8]) -> (u16, Vec<[usize; 3]>) {
    match naive::read(record) {
        Ok(read) => (0, read.entries.iter().map(|&(s, p, l)| [s as usize, p, l]).collect()),
        Err((answer, _)) => (answer, vec![]),
    }
}

fn entry_bytes(entry: &[usize; 3]) -> [u8; 6] {
    std::array::from_fn(|i| (entry[i / 2] >> (8 * (i % 2))) as u8)
}

/// What the naive rules say.
fn naively(record: &[u8], question: &Question) -> (u16, usize, Vec<u8>) {
    let Question { list, room, .. } = question;
    let number = |number: &u16| number.to_le_bytes();
    match question.operation {
        CHECK => spelled(naive::check(record, *room), number),
        REPLAY => spelled(naive::replay(record, list, *room), number),
        READ_OFF => spelled(naive::read_off(record, list, *room), |byte| [*byte]),
        ORDER_TABLE => spelled(naive::order_table(record, *room), |word| word.to_le_bytes()),
        VIEW => spelled(naive::view(record, *room as u16), |byte| [*byte]),
        _ => spelled(entries(record), entry_bytes),
    }
}

#[test]
fn every_question_naively() {
    for group in groups() {
        for question in &group.questions {
            let (answer, count, entries) = naively(&group.record, question);
            let same =
                (answer, count, &entries) == (question.answer, question.count, &question.entries);
            assert!(
                same,
                "{} of {:?} by {:?}, room {}: {} {:?}, naively {answer} {entries:?}",
                NAMES[question.operation as usize - 1],
                group.record,
                question.list,
                question.room,
                question.answer,
                question.entries,
            );
        }
    }
}

#[test]
fn limits_of_the_file() {
    assert!(file().len() <= 1_900_000, "{} bytes", file().len());
    let count = questions().count();
    assert!((8_000..=20_000).contains(&count), "{count} questions");
    for group in groups() {
        assert!(group.record.len() <= 3_000);
        for question in &group.questions {
            let most = [80, 80, 2_400, 70, 65_535, 0][question.operation as usize - 1];
            assert!(question.room <= most && question.list.len() <= 80);
        }
    }
    assert_eq!(vectors::file(&vectors::groups()), file());
}

#[test]
fn text_of_the_counts() {
    let mut text = String::new();
    for ((operation, answer), count) in counts() {
        text += &format!("{} {answer} {count}\n", NAMES[operation as usize - 1]);
    }
    text += &format!("{} cases, 0 differ\n", questions().count());
    assert_eq!(vectors::expected(&vectors::groups()), text);
}

#[test]
fn every_answer_is_given() {
    let counts = counts();
    let times = |operation: u8, answer| counts.get(&(operation, answer)).copied().unwrap_or(0);
    let form = [0, 2, 3, 4, 5];
    let table = [0, 1, 2, 3, 4, 5, 10, 11, 12, 13, 14, 20, 21, 22, 23];
    let check = [&table[..], &[24, 25, 26, 27]].concat();
    let lower = [0, 1, 2, 3, 4, 5, 10, 11, 12, 13, 14, 28, 29, 30, 31];
    let replay = [&lower[..], &[32, 33]].concat();
    let demanded: [(u8, &[u16]); 6] = [
        (CHECK, &check),
        (REPLAY, &replay),
        (READ_OFF, &lower),
        (ORDER_TABLE, &table),
        (VIEW, &form),
        (READER, &form),
    ];
    for (operation, answers) in demanded {
        for &answer in answers {
            let name = NAMES[operation as usize - 1];
            assert!(times(operation, answer) >= 20, "{name} {answer}: {counts:?}");
        }
    }
    for answer in check.iter().chain(&replay) {
        assert!((1..=6).any(|operation| times(operation, *answer) >= 40), "{answer}: {counts:?}");
    }
    let given: BTreeSet<u16> = counts.keys().map(|key| key.1).collect();
    let known: BTreeSet<u16> = check.iter().chain(&replay).copied().collect();
    assert_eq!(given, known);
}

/// Each interesting length of a buffer or list, and number in a list.
#[test]
fn every_length_is_asked() {
    let mut rooms: BTreeMap<(u8, usize), usize> = BTreeMap::new();
    for question in questions() {
        *rooms.entry((question.operation, question.room)).or_default() += 1;
    }
    let evidence = [0, 1, 63, 64, 65, 66, 80];
    let demanded: [(u8, &[usize]); 5] = [
        (CHECK, &evidence),
        (REPLAY, &evidence),
        (READ_OFF, &[0, 2345, 2346, 2347, 2400]),
        (ORDER_TABLE, &[0, 64, 65, 70]),
        (VIEW, &[0, 1, 2, 3, 4, 5, 255, 256, 65535]),
    ];
    for (operation, lengths) in demanded {
        for &length in lengths {
            let times = rooms.get(&(operation, length)).copied().unwrap_or(0);
            assert!(times >= 10, "{} of {length}: {times}", NAMES[operation as usize - 1]);
        }
    }
    for number in [255, 256, 65535] {
        let times = questions().filter(|question| question.list.contains(&number)).count();
        assert!(times >= 40, "{number} in {times} lists");
    }
}

/// The order table with one word less than there are events, as many, and more.
#[test]
fn tables_about_as_long_as_they_must_be() {
    let mut differences: BTreeMap<isize, usize> = BTreeMap::new();
    for group in groups() {
        let Ok(read) = naive::read(&group.record) else {
            continue;
        };
        for question in group.questions.iter().filter(|q| q.operation == ORDER_TABLE) {
            let difference = question.room as isize - read.n() as isize;
            *differences.entry(difference).or_default() += 1;
        }
    }
    assert!([-1, 0, 1].iter().all(|d| differences[d] >= 20), "{differences:?}");
}

/// Reading stops in every section for every reason.
#[test]
fn every_section_is_refused() {
    let mut sections: BTreeMap<(u16, u8), usize> = BTreeMap::new();
    for question in questions().filter(|q| q.operation == CHECK && (2..=5).contains(&q.answer)) {
        *sections.entry((question.answer, question.entries[0])).or_default() += 1;
    }
    let cut = (0..=9).map(|section| (2, section));
    let over = (1..=9).map(|section| (3, section));
    let wrong = [0, 2, 3, 4, 5, 6, 7, 8, 9].map(|section| (4, section));
    for kind in cut.chain(over).chain(wrong).chain([(5, 10)]) {
        let least = if kind.1 < 2 { 3 } else { 10 };
        assert!(sections.get(&kind).is_some_and(|times| *times >= least), "{kind:?}: {sections:?}");
    }
}

/// Valid records of all sizes, most of them small.
#[test]
fn valid_records_have_all_sizes() {
    let valid = |group: &&Group| {
        group.questions.iter().any(|question| question.operation == CHECK && question.answer == 0)
    };
    let sizes: Vec<usize> = groups().iter().filter(valid).map(|g| g.record[2] as usize).collect();
    let within = |least, most| sizes.iter().filter(|n| (least..=most).contains(*n)).count();
    assert!(within(0, 0) > 0 && within(1, 2) >= 10, "{sizes:?}");
    assert!(within(3, 8) >= 300 && within(9, 14) >= 60, "{sizes:?}");
    assert!(within(15, 63) >= 20 && within(64, 64) >= 12, "{sizes:?}");
}

/// Rules that may be broken just because the rule is: a cycle of section 3 is
/// one of happens-before, what an order names twice comes before itself, and
/// so do the events of a repeated section 4 entry, unless section 7 lacks it.
fn besides(rule: u16) -> &'static [u16] {
    match rule {
        11 | 20 | 21 | 22 => &[24],
        14 => &[22, 24],
        _ => &[],
    }
}

/// Many records break one rule alone.
#[test]
fn rules_are_barely_broken() {
    let mut alone: BTreeMap<u16, usize> = BTreeMap::new();
    for group in groups() {
        let Ok(read) = naive::read(&group.record) else {
            continue;
        };
        if let [rule, others @ ..] = read.broken().as_slice() {
            let barely = others.iter().all(|other| besides(*rule).contains(other));
            *alone.entry(*rule).or_default() += usize::from(barely);
        }
    }
    for rule in [10, 11, 12, 13, 14, 20, 21, 22, 23, 24, 25, 26, 27] {
        let times = alone.get(&rule).copied().unwrap_or(0);
        assert!(times >= 40, "{rule} broken alone {times} times: {alone:?}");
    }
}

/// Many lists break one rule alone.
#[test]
fn list_rules_are_barely_broken() {
    let mut alone: BTreeMap<u16, usize> = BTreeMap::new();
    for group in groups() {
        for question in group.questions.iter().filter(|q| q.operation == REPLAY) {
            if ![31, 32, 33].contains(&question.answer) {
                continue;
            }
            let read = naive::read(&group.record).expect("a replay after the structure rules");
            let list: Vec<usize> = question.list.iter().map(|&e| e as usize).collect();
            let barely = read.broken_by(&list).len() == 1;
            *alone.entry(question.answer).or_default() += usize::from(barely);
        }
    }
    assert!([31, 32, 33].iter().all(|rule| alone[rule] >= 40), "{alone:?}");
}

/// The evidence of the check is various: processors, codes and lengths.
#[test]
fn evidence_is_various() {
    let mut seen: BTreeMap<(u16, usize, u8, u8), usize> = BTreeMap::new();
    for question in questions().filter(|q| q.operation == CHECK && q.answer >= 11) {
        let entry = |i: usize| question.entries.get(2 * i).copied().unwrap_or(0);
        let first = if [20, 24, 25, 26, 27].contains(&question.answer) { entry(0) } else { 0 };
        let code = if question.answer == 26 { entry(2) } else { 0 };
        *seen.entry((question.answer, question.count, first, code)).or_default() += 1;
    }
    let least = |kinds: &[(u16, usize, u8, u8)], times: usize| {
        for kind in kinds {
            let found = seen.get(kind).copied().unwrap_or(0);
            assert!(found >= times, "{kind:?} {found} times: {seen:?}");
        }
    };
    for length in 1..=7 {
        least(&[(11, length, 0, 0)], 8);
    }
    least(&[(11, 64, 0, 0)], 2);
    assert!((0..4).any(|p| seen.contains_key(&(24, 65, p, 0))), "{seen:?}");
    for p in 0..4 {
        least(&[(20, 2, p, 0), (25, 4, p, 0), (27, 4, p, 0)], 8);
        least(&[(26, 3, p, 0), (26, 3, p, 1), (26, 4, p, 2)], 8);
        least(&[(24, 3, p, 0)], 16);
        least(&[(24, 4, p, 0)], 4);
        for entries in 5..=10 {
            least(&[(24, entries, p, 0)], 3);
        }
    }
}
