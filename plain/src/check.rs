//! The check and the order table: answers 20 to 27.

use crate::bits::{event, events_of_pair, first, least, least_wrong, only, Ascending, Rows};
use crate::cycle::{shortest, Search};
use crate::facts::holding;
use crate::orders::stand_after;
use crate::reading::Sections;
use crate::structure::{read_or_refuse, with_structure, Structure};
use crate::{answer_of, refuse, Refusal, EVIDENCE_ENTRIES};

/// A record above its structure, with what its witness says.
struct Judge<'a, 'b> {
    sections: &'a Sections<'a>,
    /// Its rows become happens-before.
    structure: &'a mut Structure<'b>,
    /// Reads with a source, the last source named for each, and whether some
    /// read has several.
    sourced: u64,
    source_of: [u8; 64],
    several: bool,
}

/// Which of the rules after 24 some view breaks. Rules are judged rule by rule;
/// this tells from one walk over the views whether they must be.
#[derive(Default)]
struct Broken {
    overwritten: bool,
    unsourced: bool,
    locked: bool,
}

/// The check: the answer and the number of evidence entries written.
pub fn check(record: &[u8], evidence: &mut [u16]) -> (u16, usize) {
    if evidence.len() < EVIDENCE_ENTRIES {
        return (1, 0);
    }
    answer_of(judge_record(record, evidence))
}

fn judge_record(record: &[u8], evidence: &mut [u16]) -> Result<(), Refusal> {
    let sections = read_or_refuse(record, evidence)?;
    with_structure::<true, _>(&sections, evidence, |structure, evidence| {
        let mut judge = Judge::over(&sections, structure);
        judge.judge_witness(evidence)?;
        judge.judge_axioms(evidence)
    })
}

/// The order table: on 0 word e has bit k set if e happens directly before k.
pub fn order_table(record: &[u8], table: &mut [u64]) -> u16 {
    match judge_order(record, table) {
        Ok(()) => 0,
        Err((answer, _)) => answer,
    }
}

fn judge_order(record: &[u8], table: &mut [u64]) -> Result<(), Refusal> {
    let mut unused = [0; EVIDENCE_ENTRIES];
    let sections = read_or_refuse(record, &mut unused)?;
    let n = sections.events.len();
    if table.len() < n {
        return Err((1, 0));
    }
    with_structure::<true, _>(&sections, &mut unused, |structure, unused| {
        let mut judge = Judge::over(&sections, structure);
        judge.judge_witness(unused)?;
        for (word, row) in table.iter_mut().zip(&judge.structure.rows[..n.min(64)]) {
            *word = *row;
        }
        Ok(())
    })
}

impl<'a, 'b> Judge<'a, 'b> {
    #[inline(always)]
    fn over(sections: &'a Sections<'a>, structure: &'a mut Structure<'b>) -> Judge<'a, 'b> {
        Judge { sections, structure, sourced: 0, source_of: [0; 64], several: false }
    }

    /// Answers 20 to 23, and happens-before.
    #[inline(always)]
    fn judge_witness(&mut self, evidence: &mut [u16]) -> Result<(), Refusal> {
        self.judge_lists(evidence)?;
        self.structure.add_orders(self.sections);
        self.judge_reads_from(evidence)
    }

    /// Answers 20, 21 and 22.
    #[inline(always)]
    fn judge_lists(&self, evidence: &mut [u16]) -> Result<(), Refusal> {
        let facts = self.structure.facts;
        for (p, view) in self.sections.views().iter().enumerate() {
            if let Some(e) = wrong_in(view, facts.seen_by(p)) {
                return Err(refuse(20, [p, e], evidence));
            }
        }
        if let Some(e) = wrong_in(self.sections.store_order, facts.stores()) {
            return Err(refuse(21, [e], evidence));
        }
        let entries = first(self.sections.locked.len());
        if let Some(entry) = wrong_in(self.sections.locked_order, entries) {
            return Err(refuse(22, [entry], evidence));
        }
        Ok(())
    }

    /// Answer 23; the pairs go into happens-before.
    #[inline(always)]
    fn judge_reads_from(&mut self, evidence: &mut [u16]) -> Result<(), Refusal> {
        let (facts, places) = (self.structure.facts, self.structure.places);
        let (mut sourced, mut several) = (0, false);
        for pair in self.sections.reads_from {
            let (w, r) = events_of_pair(pair);
            let fits = facts.writes() & only(w) != 0
                && facts.reads() & only(r) != 0
                && places.number_of(w) == places.number_of(r)
                && self.sections.value_of(w) == self.sections.value_of(r);
            if !fits {
                return Err(refuse(23, [w, r], evidence));
            }
            self.structure.rows[w] |= only(r);
            several |= sourced & only(r) != 0 && self.source_of[r] != w as u8;
            sourced |= only(r);
            self.source_of[r] = w as u8;
        }
        (self.sourced, self.several) = (sourced, several);
        Ok(())
    }

    /// Answers 24 to 27: one walk over the views tells 24 and whether the rules
    /// after it need a closer look.
    #[inline(always)]
    fn judge_axioms(&self, evidence: &mut [u16]) -> Result<(), Refusal> {
        let mut broken = Broken { overwritten: self.several, ..Broken::default() };
        let mut after = [0; 64];
        for (p, view) in self.sections.views().iter().enumerate() {
            let seen = self.structure.facts.seen_by(p);
            if self.has_cycle(p, view, seen, &mut after) {
                return Err(self.show_cycle(p, evidence));
            }
            self.look_at_reads(p, seen, &after, &mut broken);
            broken.locked |= self.structure.any_broken_up(seen, &after);
        }
        self.look_at_initial_values(&mut broken);
        if broken.overwritten {
            self.judge_overwritten(evidence)?;
        }
        if broken.unsourced {
            self.judge_unsourced(evidence)?;
        }
        if broken.locked {
            self.judge_locked(evidence)?;
        }
        Ok(())
    }

    /// Whether p's view order and happens-before have a cycle. The view is
    /// walked from its end: an event is finished when all it leads to is, and
    /// must not lead to one earlier in the view. The first processor's walk
    /// goes on to all events, so that for the others a cycle can only be one
    /// through their view.
    ///
    /// What is finished before an event is all that stands after it in the
    /// view, and events not seen; this is noted in `after`.
    #[inline(never)]
    fn has_cycle(&self, p: usize, view: &[u8], seen: u64, after: &mut Rows) -> bool {
        let mut search = Search::over(&self.structure.rows);
        for &number in view.iter().rev() {
            after[event(number)] = search.done;
            if !search.finish(event(number), seen) {
                return true;
            }
        }
        p == 0 && !search.finish_all(first(self.sections.events.len()))
    }

    /// Answer 24.
    #[cold]
    fn show_cycle(&self, p: usize, evidence: &mut [u16]) -> Refusal {
        let after = self.view_order(p);
        let mut joined = self.structure.rows;
        for (row, after) in joined.iter_mut().zip(after) {
            *row |= after;
        }
        let Some((processor, part)) = evidence.split_first_mut() else {
            return (24, 0);
        };
        *processor = p as u16;
        (24, 1 + shortest(&joined, self.sections.events.len(), part))
    }

    /// The view order of a processor as rows.
    fn view_order(&self, p: usize) -> Rows {
        let mut after = [0; 64];
        stand_after(self.sections.views[p & 3], &mut after);
        after
    }

    /// Writes of the place of read r that stand before r but, with a source w,
    /// not before w. A read is seen by its own processor alone; after 24 it
    /// sees the source too, and before the read.
    #[inline(always)]
    fn written_between(&self, from: u64, r: usize, after: &Rows) -> u64 {
        let writes = self.structure.facts.writes();
        from & !after[r] & writes & self.structure.places.same(r)
    }

    /// Whether p's view breaks 25, or 26 by a write before the read. Of several
    /// sources of one read, one is overwritten by another.
    #[inline(always)]
    fn look_at_reads(&self, p: usize, seen: u64, after: &Rows, broken: &mut Broken) {
        let facts = self.structure.facts;
        let reads = facts.own[p & 3] & facts.reads();
        let mut overwriting = 0;
        for r in Ascending(reads & self.sourced) {
            overwriting |= self.written_between(after[event(self.source_of[r])], r, after);
        }
        broken.overwritten |= overwriting != 0;
        let mut written = 0;
        for r in Ascending(reads & !self.sourced) {
            written |= self.written_between(seen, r, after);
        }
        broken.unsourced |= written != 0;
    }

    /// Whether 26 is broken by an initial value.
    #[inline(always)]
    fn look_at_initial_values(&self, broken: &mut Broken) {
        let unsourced = self.structure.facts.reads() & !self.sourced;
        if unsourced != 0 {
            let places = self.structure.places;
            let initial = places.initial_values(self.sections.initial);
            for r in Ascending(unsourced) {
                let held = initial[places.number_of(r)];
                broken.unsourced |= held != holding(self.sections.value_of(r));
            }
        }
    }

    /// Answer 25, the least p, w, r, x.
    #[cold]
    fn judge_overwritten(&self, evidence: &mut [u16]) -> Result<(), Refusal> {
        for p in 0..self.sections.processors {
            let after = self.view_order(p);
            let own = self.structure.facts.own[p & 3];
            let shown = self
                .sections
                .reads_from
                .iter()
                .map(events_of_pair)
                .filter(|&(_, r)| own & only(r) != 0)
                .map(|(w, r)| (w, r, self.written_between(after[w], r, &after)))
                .filter(|&(_, _, overwriting)| overwriting != 0)
                .map(|(w, r, overwriting)| [p, w, r, least(overwriting)])
                .min();
            if let Some(shown) = shown {
                return Err(refuse(25, shown, evidence));
            }
        }
        Ok(())
    }

    /// Answer 26, the least p, r, code, x.
    #[cold]
    fn judge_unsourced(&self, evidence: &mut [u16]) -> Result<(), Refusal> {
        let (facts, places) = (self.structure.facts, self.structure.places);
        let initial = places.initial_values(self.sections.initial);
        for p in 0..self.sections.processors {
            let after = self.view_order(p);
            for r in Ascending(facts.own[p & 3] & facts.reads() & !self.sourced) {
                let held = initial[places.number_of(r)];
                if held == 0 {
                    return Err(refuse(26, [p, r, 0], evidence));
                }
                if held != holding(self.sections.value_of(r)) {
                    return Err(refuse(26, [p, r, 1], evidence));
                }
                let written = self.written_between(facts.seen_by(p), r, &after);
                if written != 0 {
                    return Err(refuse(26, [p, r, 2, least(written)], evidence));
                }
            }
        }
        Ok(())
    }

    /// Answer 27, the least p, a, x, b.
    #[cold]
    fn judge_locked(&self, evidence: &mut [u16]) -> Result<(), Refusal> {
        for p in 0..self.sections.processors {
            let seen = self.structure.facts.seen_by(p);
            let found = self.structure.least_broken_up(seen, &self.view_order(p));
            if let Some([a, x, b]) = found {
                return Err(refuse(27, [p, a, x, b], evidence));
            }
        }
        Ok(())
    }
}

/// The least number that a list has too seldom or too often, if it is not the
/// set, each once. As many numbers as the set has, that name all of the set,
/// name each once.
#[inline(always)]
fn wrong_in(list: &[u8], due: u64) -> Option<usize> {
    let named = list.iter().fold(0, |named, &number| named | only(event(number)));
    if named == due && list.len() == due.count_ones() as usize {
        return None;
    }
    least_wrong(list.iter().map(|&number| event(number)), due)
}
