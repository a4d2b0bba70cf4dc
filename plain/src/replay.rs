//! The replay of a list and the read-off of a record from it: answers 28 to 33.

use crate::bits::{first, least, least_wrong, only, Ascending, Rows};
use crate::facts::holding;
use crate::orders::stand_after;
use crate::reading::Sections;
use crate::structure::{read_or_refuse, with_structure, Structure};
use crate::{answer_of, refuse, Refusal, EVIDENCE_ENTRIES, LONGEST_RECORD};

/// A list that holds each event once.
struct Sequence {
    order: [u8; 64],
    /// For each event, what stands after it.
    after: Rows,
}

impl Sequence {
    /// Answers 28 to 30.
    #[inline(always)]
    fn judge(list: &[u16], n: usize, evidence: &mut [u16]) -> Result<Sequence, Refusal> {
        if list.len() != n {
            return Err((28, 0));
        }
        let mut sequence = Sequence { order: [0; 64], after: [0; 64] };
        for (position, (slot, &number)) in sequence.order.iter_mut().zip(list).enumerate() {
            if number as usize >= n {
                return Err(refuse(29, [position], evidence));
            }
            *slot = number as u8;
        }
        let named = stand_after(&sequence.order[..n.min(64)], &mut sequence.after);
        if named != first(n) {
            if let Some(e) = least_wrong(list.iter().map(|&e| e as usize), first(n)) {
                return Err(refuse(30, [e], evidence));
            }
        }
        Ok(sequence)
    }

    /// Answer 31.
    #[inline(always)]
    fn judge_locked(&self, structure: &Structure, evidence: &mut [u16]) -> Result<(), Refusal> {
        if structure.any_broken_up(!0, &self.after) {
            if let Some(shown) = structure.least_broken_up(!0, &self.after) {
                return Err(refuse(31, shown, evidence));
            }
        }
        Ok(())
    }

    /// Answer 32.
    #[inline(always)]
    fn judge_order(&self, structure: &mut Structure, evidence: &mut [u16]) -> Result<(), Refusal> {
        structure.add_preserved_order();
        for (a, (row, after)) in structure.rows.iter().zip(&self.after).enumerate() {
            if row & !after != 0 {
                return Err(refuse(32, [a, least(row & !after)], evidence));
            }
        }
        Ok(())
    }

    /// Answer 33: every step in turn on the memory state.
    #[inline(always)]
    fn judge_values(
        &self,
        sections: &Sections,
        structure: &Structure,
        evidence: &mut [u16],
    ) -> Result<(), Refusal> {
        let places = structure.places;
        let mut state = places.initial_values(sections.initial);
        for e in self.events(sections) {
            let held = &mut state[places.number_of(e)];
            let value = holding(sections.value_of(e));
            if structure.facts.writes() & only(e) != 0 {
                *held = value;
            } else if *held != value {
                return Err(refuse(33, [e], evidence));
            }
        }
        Ok(())
    }

    /// The events in list order.
    #[inline(always)]
    fn events(&self, sections: &Sections) -> impl Iterator<Item = usize> + '_ {
        let n = sections.events.len().min(64);
        self.order[..n].iter().map(|&e| (e & 63) as usize)
    }
}

/// Judges 2 to 5, 10 to 14 and 28 to 31 and goes on with `then`.
#[inline(always)]
fn with_sequence<T>(
    record: &[u8],
    list: &[u16],
    evidence: &mut [u16],
    then: impl FnOnce(&Sections, &mut Structure, &Sequence, &mut [u16]) -> Result<T, Refusal>,
) -> Result<T, Refusal> {
    let sections = read_or_refuse(record, evidence)?;
    with_structure::<true, _>(&sections, evidence, |structure, evidence| {
        let sequence = Sequence::judge(list, sections.events.len(), evidence)?;
        sequence.judge_locked(structure, evidence)?;
        then(&sections, structure, &sequence, evidence)
    })
}

/// The replay: the answer and the number of evidence entries written.
pub fn replay(record: &[u8], list: &[u16], evidence: &mut [u16]) -> (u16, usize) {
    if evidence.len() < EVIDENCE_ENTRIES {
        return (1, 0);
    }
    answer_of(with_sequence(record, list, evidence, |sections, structure, sequence, evidence| {
        sequence.judge_order(structure, evidence)?;
        sequence.judge_values(sections, structure, evidence)
    }))
}

/// The read-off: the answer and the length written, 0 on a refusal.
pub fn read_off(record: &[u8], list: &[u16], out: &mut [u8]) -> (u16, usize) {
    if out.len() < LONGEST_RECORD {
        return (1, 0);
    }
    let mut unused = [0; EVIDENCE_ENTRIES];
    let written = with_sequence(record, list, &mut unused, |sections, structure, sequence, _| {
        let mut writer = Writer { out, at: 0 };
        writer.bytes(&record[..sections.witness_start()]);
        writer.witness(sections, structure, sequence);
        Ok(writer.at)
    });
    match written {
        Ok(length) => (0, length),
        Err((answer, _)) => (answer, 0),
    }
}

/// Fills a buffer that is long enough from its front.
struct Writer<'a> {
    out: &'a mut [u8],
    at: usize,
}

impl Writer<'_> {
    fn bytes(&mut self, bytes: &[u8]) {
        self.out[self.at..self.at + bytes.len()].copy_from_slice(bytes);
        self.at += bytes.len();
    }

    fn count(&mut self, count: usize) {
        self.bytes(&(count as u16).to_le_bytes());
    }

    /// A count, then the events of the list that are in the set, in list order.
    fn events(&mut self, sections: &Sections, sequence: &Sequence, set: u64) {
        self.count(set.count_ones() as usize);
        for e in sequence.events(sections) {
            if set & only(e) != 0 {
                self.bytes(&[e as u8]);
            }
        }
    }

    /// Sections 6 to 9 as the list has them.
    fn witness(&mut self, sections: &Sections, structure: &Structure, sequence: &Sequence) {
        self.events(sections, sequence, structure.facts.stores());
        self.locked_order(sections, structure, sequence);
        self.reads_from(sections, structure, sequence);
        self.count(sections.processors);
        for p in 0..sections.processors {
            self.events(sections, sequence, structure.facts.seen_by(p));
        }
    }

    /// Section 7: an entry where the list first comes to an event of it.
    fn locked_order(&mut self, sections: &Sections, structure: &Structure, sequence: &Sequence) {
        let locked = &structure.locked[..sections.locked.len().min(16)];
        let mut entry_of = [0u8; 64];
        let mut firsts = 0;
        for (number, &instruction) in locked.iter().enumerate() {
            let first = Ascending(instruction)
                .find(|&e| instruction & !only(e) & !sequence.after[e] == 0)
                .unwrap_or(0);
            entry_of[first] = number as u8;
            firsts |= only(first);
        }
        self.count(locked.len());
        for e in sequence.events(sections) {
            if firsts & only(e) != 0 {
                self.bytes(&[entry_of[e]]);
            }
        }
    }

    /// Section 8: the last earlier write of each read's place. Its count is
    /// known only after the pairs.
    fn reads_from(&mut self, sections: &Sections, structure: &Structure, sequence: &Sequence) {
        let start = self.at;
        self.count(0);
        let mut last_write = [None; 128];
        for e in sequence.events(sections) {
            let last = &mut last_write[structure.places.number_of(e)];
            if structure.facts.writes() & only(e) != 0 {
                *last = Some(e as u8);
            } else if let Some(w) = *last {
                self.bytes(&[w, e as u8]);
            }
        }
        let pairs = (self.at - start - 2) / 2;
        self.out[start..start + 2].copy_from_slice(&(pairs as u16).to_le_bytes());
    }
}
