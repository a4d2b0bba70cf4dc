//! The structure rules, answers 10 to 14.

use crate::bits::{events_of_pair, first, least, only, Ascending, Rows};
use crate::cycle::{shortest, Search};
use crate::facts::{Facts, Places};
use crate::reading::{read, Sections};
use crate::{answer_of, refuse, Refusal, EVIDENCE_ENTRIES};

/// What the structure rules leave for the rules above them.
pub struct Structure<'a> {
    pub facts: &'a Facts,
    pub places: &'a Places,
    /// Section 3; the rules above add the other orders.
    pub rows: Rows,
    /// The events of each locked entry, and of all of them.
    pub locked: [u64; 16],
    pub locked_count: usize,
    pub any_locked: u64,
}

/// Gathers the facts, judges rules 10 to 14 and goes on with `then`. With
/// `MEMORY` unset, `then` may not ask for memory places.
#[inline(always)]
pub fn with_structure<const MEMORY: bool, T>(
    sections: &Sections,
    evidence: &mut [u16],
    then: impl FnOnce(&mut Structure, &mut [u16]) -> Result<T, Refusal>,
) -> Result<T, Refusal> {
    let mut facts = Facts::none();
    let mut places = Places::none();
    facts.gather::<MEMORY>(&mut places, sections.events);
    let mut structure = Structure {
        facts: &facts,
        places: &places,
        rows: [0; 64],
        locked: [0; 16],
        locked_count: sections.locked.len(),
        any_locked: 0,
    };
    structure.judge_causality(sections, evidence)?;
    structure.judge_registers(evidence)?;
    structure.judge_locked(sections, evidence)?;
    then(&mut structure, evidence)
}

impl Structure<'_> {
    /// Answers 10 and 11. Pairs that all ascend cannot close a cycle.
    #[inline(always)]
    fn judge_causality(
        &mut self,
        sections: &Sections,
        evidence: &mut [u16],
    ) -> Result<(), Refusal> {
        let mut descending = false;
        for pair in sections.causality {
            let (a, b) = events_of_pair(pair);
            if self.facts.instruction_of[a] != self.facts.instruction_of[b] {
                return Err(refuse(10, [a, b], evidence));
            }
            self.rows[a] |= only(b);
            descending |= a >= b;
        }
        let n = sections.events.len();
        if descending && !Search::over(&self.rows).finish_all(first(n)) {
            return Err((11, shortest(&self.rows, n, evidence)));
        }
        Ok(())
    }

    /// Answer 12.
    #[inline(always)]
    fn judge_registers(&self, evidence: &mut [u16]) -> Result<(), Refusal> {
        let writes = self.facts.writes();
        for a in Ascending(self.facts.shared) {
            let above = !0 << a << 1;
            let other = self.facts.same_instruction(a) & self.places.same(a) & above;
            let writing = if writes & only(a) != 0 { other } else { other & writes };
            for b in Ascending(writing & !self.rows[a]) {
                if self.rows[b] & only(a) == 0 {
                    return Err(refuse(12, [a, b], evidence));
                }
            }
        }
        Ok(())
    }

    /// Answers 13 and 14. Entries with events repeat exactly if they share one.
    #[inline(always)]
    fn judge_locked(&mut self, sections: &Sections, evidence: &mut [u16]) -> Result<(), Refusal> {
        let mut repeated = 0;
        for (number, entry) in sections.locked.iter().enumerate().take(16) {
            let index = u16::from_le_bytes([entry[2], entry[3]]);
            let events = self.facts.events_of(entry[0] as usize, index);
            if events == 0 {
                return Err(refuse(13, [number], evidence));
            }
            if self.any_locked & events != 0 {
                repeated |= only(number);
            }
            self.locked[number] = events;
            self.any_locked |= events;
        }
        if repeated != 0 {
            return Err(refuse(14, [least(repeated)], evidence));
        }
        Ok(())
    }
}

/// Reading and then the structure rules: 0, 2 to 5 with the section as
/// evidence, 10 to 14. A buffer of fewer than 65 entries is answer 1.
pub fn structure(record: &[u8], evidence: &mut [u16]) -> (u16, usize) {
    if evidence.len() < EVIDENCE_ENTRIES {
        return (1, 0);
    }
    answer_of(judge_structure(record, evidence))
}

fn judge_structure(record: &[u8], evidence: &mut [u16]) -> Result<(), Refusal> {
    let sections = read_or_refuse(record, evidence)?;
    with_structure::<false, _>(&sections, evidence, |_, _| Ok(()))
}

/// Reads a record; what is wrong with it goes into the evidence.
#[inline(always)]
pub fn read_or_refuse<'a>(record: &'a [u8], evidence: &mut [u16]) -> Result<Sections<'a>, Refusal> {
    read(record).map_err(|(answer, section)| refuse(answer, [section as usize], evidence))
}
