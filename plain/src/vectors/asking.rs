//! Which questions are asked about a record, and with what buffers.

use super::bases::Base;
use super::{Group, Question};
use crate::sample::{orders_of_four, overwritten, s1, s2, torn, Random, Record};
use crate::shapes::{longest, stores};
use std::collections::{BTreeMap, BTreeSet};

/// Lengths of buffers, the long enough ones and those that are too short.
const EVIDENCE: [usize; 3] = [65, 66, 80];
const SHORT_EVIDENCE: [usize; 4] = [0, 1, 63, 64];
const OUT: [usize; 3] = [2346, 2347, 2400];
const SHORT_OUT: [usize; 2] = [0, 2345];
const LONGEST_TABLE: usize = 70;
/// Processors of view questions.
const PROCESSORS: [u16; 9] = [0, 1, 2, 3, 4, 5, 255, 256, 65535];

/// Collects groups, one for a record.
pub struct Asker {
    pub rng: Random,
    pub groups: Vec<Group>,
    /// The place of each record's group.
    known: BTreeMap<Vec<u8>, usize>,
}

impl Asker {
    pub fn seeded(seed: u64) -> Asker {
        Asker { rng: Random(seed), groups: Vec::new(), known: BTreeMap::new() }
    }

    /// Whether no group has the record yet.
    pub fn is_new(&self, record: &[u8]) -> bool {
        !self.known.contains_key(record)
    }

    /// Adds questions about a record.
    pub fn add(&mut self, record: Vec<u8>, questions: Vec<Question>) {
        if let Some(&known) = self.known.get(&record) {
            self.groups[known].questions.extend(questions);
            return;
        }
        self.known.insert(record.clone(), self.groups.len());
        self.groups.push(Group { record, questions });
    }

    /// A length, seldom one that is too short.
    fn room(&mut self, enough: &[usize], short: &[usize]) -> usize {
        let among = if self.rng.once_in(20) { short } else { enough };
        self.rng.pick(among)
    }

    pub fn check(&mut self) -> Question {
        Question::Check { room: self.room(&EVIDENCE, &SHORT_EVIDENCE) }
    }

    pub fn replay(&mut self, list: &[u16]) -> Question {
        Question::Replay { list: list.to_vec(), room: self.room(&EVIDENCE, &SHORT_EVIDENCE) }
    }

    pub fn read_off(&mut self, list: &[u16]) -> Question {
        Question::ReadOff { list: list.to_vec(), room: self.room(&OUT, &SHORT_OUT) }
    }

    /// An order table for a record of n events.
    pub fn order_table(&mut self, n: usize) -> Question {
        let short = [n.saturating_sub(1), 0];
        Question::OrderTable { room: self.room(&[n, n + 1, LONGEST_TABLE], &short) }
    }

    pub fn view(&mut self) -> Question {
        Question::View { processor: self.rng.pick(&PROCESSORS) }
    }

    /// A view question about a processor that is there.
    pub fn view_of(&mut self, record: &Record) -> Question {
        let processors = record.processors.max(1) as usize;
        Question::View { processor: self.rng.below(processors) as u16 }
    }

    /// The check and some other questions about bytes that reading refuses or
    /// may refuse.
    pub fn ask_bytes(&mut self, record: Vec<u8>, list: &[u16], others: usize) {
        let n = list.len();
        let mut questions = vec![
            self.replay(list),
            self.read_off(list),
            self.order_table(n),
            self.view(),
            Question::Reader,
        ];
        self.rng.shuffle(&mut questions);
        questions.truncate(others);
        questions.insert(0, self.check());
        self.add(record, questions);
    }

    /// Every operation with buffers of every length, and every processor.
    pub fn ask_all(&mut self, record: Vec<u8>, list: &[u16]) {
        let mut questions = vec![Question::Reader];
        for room in SHORT_EVIDENCE.into_iter().chain(EVIDENCE) {
            questions.push(Question::Check { room });
            questions.push(Question::Replay { list: list.to_vec(), room });
        }
        for room in SHORT_OUT.into_iter().chain(OUT) {
            questions.push(Question::ReadOff { list: list.to_vec(), room });
        }
        let n = list.len();
        let rooms = BTreeSet::from([n.saturating_sub(1), n, n + 1, 0, LONGEST_TABLE]);
        questions.extend(rooms.into_iter().map(|room| Question::OrderTable { room }));
        questions.extend(PROCESSORS.map(|processor| Question::View { processor }));
        self.add(record, questions);
    }

    /// S1 and S2 by all their sequences, the other slot cases, and records
    /// without events.
    pub fn ask_slot_cases(&mut self) {
        for record in [s1(), s2()] {
            let mut questions = vec![
                Question::Check { room: 65 },
                Question::OrderTable { room: 4 },
                Question::View { processor: 1 },
                Question::Reader,
            ];
            for list in orders_of_four() {
                questions.push(self.replay(&list));
                questions.push(self.read_off(&list));
            }
            self.add(record.bytes(), questions);
        }
        let all: Vec<u16> = (0..64).collect();
        for record in [overwritten(), torn(), stores(64, 16), stores(65, 0), stores(64, 17)] {
            self.ask_all(record.bytes(), &all[..record.events.len().min(64)]);
        }
        self.ask_all(Record { reads_from: vec![], ..longest() }.bytes(), &all);
        for bytes in [longest().bytes(), [longest().bytes(), vec![0]].concat()] {
            self.ask_bytes(bytes, &all, 5);
        }
        for processors in 0..=5 {
            let views = vec![vec![]; processors as usize];
            self.ask_all(Record { processors, views, ..Record::default() }.bytes(), &[]);
        }
        self.ask_all(vec![], &[]);
    }

    /// A valid record by its sequence.
    pub fn ask_valid(&mut self, base: &Base) {
        let (record, list) = (&base.record, &base.list);
        let mut questions = vec![self.check(), self.replay(list), self.order_table(list.len())];
        if self.rng.once_in(3) {
            questions.push(self.read_off(list));
        }
        if self.rng.once_in(2) {
            questions.push(self.view_of(record));
            questions.push(self.view());
        }
        if self.rng.once_in(6) {
            questions.push(Question::Reader);
        }
        self.add(record.bytes(), questions);
    }
}
