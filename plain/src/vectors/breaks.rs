//! Records that barely break a rule of the check, answers 10 to 27.

use super::asking::Asker;
use super::bases::{Base, Pool};
use super::faults::{Change, CHANGES};
use super::{cycles, Question};
use crate::runs::run;
use crate::sample::{Random, Record};
use crate::shapes::merged;
use std::collections::{BTreeMap, BTreeSet};

/// How many records are tried for each change.
const TRIES: usize = 6000;
/// How many records are at most taken for an answer.
const MOST_OF_ANSWER: usize = 340;

/// How many records are at most taken for a kind of evidence; some answers
/// have evidence of many kinds.
fn most_of_kind(answer: u16) -> usize {
    match answer {
        11 => 14,
        24 => 20,
        25 => 48,
        26 => 28,
        _ => 40,
    }
}

/// Keeps evidence various: answer, length, and what stands first in it.
#[derive(Default)]
pub struct Spread {
    answers: BTreeMap<u16, usize>,
    kinds: BTreeMap<(u16, usize, u16, u16), usize>,
}

impl Spread {
    /// Whether there is still room for such evidence; if so, it is counted.
    fn takes(&mut self, answer: u16, evidence: &[u16]) -> bool {
        let first = evidence.first().map_or(0, |&entry| entry.min(4));
        let code = if answer == 26 { evidence[2] } else { 0 };
        let of_kind = self.kinds.entry((answer, evidence.len(), first, code)).or_default();
        let of_answer = self.answers.entry(answer).or_default();
        let takes = *of_kind < most_of_kind(answer) && *of_answer < MOST_OF_ANSWER;
        *of_kind += usize::from(takes);
        *of_answer += usize::from(takes);
        takes
    }
}

/// The questions about a record that a rule of the check refuses.
fn ask_broken(asker: &mut Asker, record: &Record, answer: u16, list: &[u16]) {
    let n = record.events.len();
    let mut questions = vec![asker.check()];
    let among_four = if answer < 24 { 3 } else { 1 };
    if asker.rng.below(4) < among_four {
        questions.push(asker.order_table(n));
    }
    let structure = answer < 20;
    let wrong_length = structure && asker.rng.once_in(3);
    let list = if wrong_length { &list[..list.len() / 2] } else { list };
    let rarely = if structure { 2 } else { 6 };
    if asker.rng.once_in(rarely) {
        questions.push(asker.replay(list));
    }
    if asker.rng.once_in(2 * rarely) {
        questions.push(asker.read_off(list));
    }
    if asker.rng.once_in(10) {
        questions.push(asker.view_of(record));
    }
    if asker.rng.once_in(30) {
        questions.push(Question::Reader);
    }
    asker.add(record.bytes(), questions);
}

/// Asks about a record if its answer is among those wanted.
fn try_record(
    asker: &mut Asker,
    spread: &mut Spread,
    record: &Record,
    list: &[u16],
    wanted: &[u16],
) {
    let (answer, evidence) = record.checked();
    let fits = wanted.contains(&answer) && asker.is_new(&record.bytes());
    if fits && spread.takes(answer, &evidence) {
        ask_broken(asker, record, answer, list);
    }
}

/// The same for a record without a sequence of its own: its events as they are
/// numbered.
pub fn try_shape(asker: &mut Asker, spread: &mut Spread, record: &Record, wanted: &[u16]) {
    let list: Vec<u16> = (0..record.events.len() as u16).collect();
    try_record(asker, spread, record, &list, wanted);
}

/// Records with one change, or with several so that there is evidence to
/// choose from.
fn ask_changes(asker: &mut Asker, spread: &mut Spread, pool: &Pool) {
    for i in 0..TRIES {
        for (answer, change) in CHANGES {
            let rng = &mut asker.rng;
            let times = if i % 2 == 0 { 1 } else { 2 + rng.below(5) };
            let rich = answer >= 25 && times > 1;
            let base = if rich { pool.pick_rich(rng) } else { pool.pick(rng) };
            let mut record = base.record.clone();
            for _ in 0..times {
                change(rng, &mut record);
            }
            try_record(asker, spread, &record, &base.list, &[answer]);
        }
    }
}

/// The list in units: the events of a locked instruction, or one event.
fn units(record: &Record, list: &[u16]) -> Vec<Vec<u16>> {
    let together = |a: &u16, b: &u16| {
        let (a, b) = (*a as usize, *b as usize);
        record.is_locked(a) && record.same_instruction(a, b)
    };
    list.chunk_by(together).map(<[u16]>::to_vec).collect()
}

/// The list with two neighbouring units swapped that it must keep in order, or
/// two neighbours of one unit.
fn barely_reordered(rng: &mut Random, record: &Record, list: &[u16]) -> Option<Vec<u16>> {
    let mut units = units(record, list);
    let kept = |a: &u16, b: &u16| record.keeps(*a as usize, *b as usize);
    let mut swaps = Vec::new();
    for (i, unit) in units.iter().enumerate() {
        let inner = (1..unit.len()).filter(|&k| kept(&unit[k - 1], &unit[k]));
        swaps.extend(inner.map(|k| (i, k)));
        let next = units.get(i + 1);
        if next.is_some_and(|next| unit.iter().any(|a| next.iter().any(|b| kept(a, b)))) {
            swaps.push((i, 0));
        }
    }
    match rng.some(&swaps)? {
        (i, 0) => units.swap(i, i + 1),
        (i, k) => units[i].swap(k - 1, k),
    }
    Some(units.concat())
}

/// Runs in a sequence that section 3 or preserved order forbids in one place:
/// the replay by it answers 32, and the check of its witness 24.
fn ask_reordered(asker: &mut Asker, pool: &Pool) {
    for base in pool.bases().step_by(3) {
        let list = barely_reordered(&mut asker.rng, &base.record, &base.list);
        let Some(list) = list else {
            continue;
        };
        let mut record = base.record.clone();
        run(&mut record, &list);
        let record = record.with_witness_of(&list);
        let questions = vec![asker.check(), asker.replay(&list)];
        asker.add(record.bytes(), questions);
    }
}

/// Locked instructions that the views break up or leave together.
fn ask_merged(asker: &mut Asker, spread: &mut Spread) {
    for _ in 0..TRIES {
        let record = merged(&mut asker.rng);
        try_shape(asker, spread, &record, &[0, 27]);
    }
}

/// A change that gives the record this answer, if a few tries find one.
fn breaking(rng: &mut Random, record: &Record, answer: u16) -> Option<Record> {
    let changes: Vec<Change> =
        CHANGES.iter().filter(|change| change.0 == answer).map(|change| change.1).collect();
    (0..6).find_map(|_| {
        let mut broken = record.clone();
        rng.pick(&changes)(rng, &mut broken);
        (broken.checked().0 == answer).then_some(broken)
    })
}

/// A record with two changes, each for its answer, and its sequence. The change
/// for the later answer is made first, and alone gives that answer.
fn broken_twice(
    rng: &mut Random,
    pool: &Pool,
    first: u16,
    later: u16,
) -> Option<(Record, Vec<u16>)> {
    let base = pool.pick(rng);
    let record = breaking(rng, &base.record, later)?;
    Some((breaking(rng, &record, first)?, base.list.clone()))
}

/// Records that break two rules: the first answer counts.
fn ask_two_breaks(asker: &mut Asker, pool: &Pool) {
    let answers: BTreeSet<u16> = CHANGES.iter().map(|change| change.0).collect();
    for &later in &answers {
        for &first in answers.range(..later) {
            let mut tries = 0..400;
            for _ in 0..if first < 24 { 5 } else { 10 } {
                let found = tries.find_map(|_| broken_twice(&mut asker.rng, pool, first, later));
                if let Some((record, list)) = found {
                    ask_broken(asker, &record, first, &list);
                }
            }
        }
    }
}

/// A change to each large record.
fn ask_large(asker: &mut Asker, pool: &Pool) {
    for Base { record, list } in pool.large() {
        let mut record = record.clone();
        let (_, change) = asker.rng.pick(&CHANGES);
        change(&mut asker.rng, &mut record);
        let (answer, _) = record.checked();
        ask_broken(asker, &record, answer, list);
    }
}

/// Adds all cases of the rules 10 to 27.
pub fn ask(asker: &mut Asker, pool: &Pool) {
    let mut spread = Spread::default();
    cycles::ask(asker, &mut spread);
    ask_merged(asker, &mut spread);
    ask_changes(asker, &mut spread, pool);
    ask_reordered(asker, pool);
    ask_two_breaks(asker, pool);
    ask_large(asker, pool);
}
