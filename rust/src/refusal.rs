//! A refusal with its evidence, decoded from the numbers.

use crate::Rule;
use core::error::Error;

/// A broken rule with its evidence, as the check and the replay give it.
///
/// Events, processors and entries are numbers of the record, from 0. A cycle is a part of the
/// [`Evidence`](crate::Evidence) that was lent.
///
/// ```
/// use reefmitten::{check, Evidence, Refusal, Rule};
///
/// let record = std::fs::read("../records/s2.bin").unwrap();
/// let mut evidence = Evidence::new();
/// let refusal = check(&record, &mut evidence).unwrap_err();
/// assert_eq!(refusal, Refusal::Cycle { processor: 1, events: &[0, 2] });
/// assert_eq!(refusal.rule(), Rule::Cycle);
/// println!("{refusal}");
/// ```
#[derive(Clone, Copy, Debug, PartialEq, Eq)]
pub enum Refusal<'e> {
    /// 1: a lent output buffer is too short. An [`Evidence`](crate::Evidence) never is.
    ShortBuffer,
    /// 2: the record ends before or inside a field or entry that is due.
    CutShort {
        /// The section that is not complete.
        section: u16,
    },
    /// 3: a count is over its limit.
    CountOverLimit {
        /// The section of the count.
        section: u16,
    },
    /// 4: a field is out of range.
    FieldOutOfRange {
        /// The section of the field.
        section: u16,
    },
    /// 5: there are bytes after section 9.
    BytesLeftOver {
        /// Always 10: one past the last section.
        section: u16,
    },
    /// 10: a section 3 pair joins two instructions. The first such pair.
    JoinedInstructions {
        /// The first event of the pair.
        from: u16,
        /// The second event of the pair.
        to: u16,
    },
    /// 11: section 3 has a cycle.
    CausalityCycle {
        /// The cycle, a shortest one, begun at its least event; the last has a step to the first.
        events: &'e [u16],
    },
    /// 12: two events of one instruction at one register, one or both writing, and section 3 has
    /// neither pair.
    UnorderedRegister {
        /// The event with the lower number.
        event: u16,
        /// The event with the higher number.
        other: u16,
    },
    /// 13: a section 4 entry has no event.
    EventlessLock {
        /// The number of the entry.
        entry: u16,
    },
    /// 14: a section 4 entry repeats an earlier one.
    RepeatedLock {
        /// The number of the later entry.
        entry: u16,
    },
    /// 20: a view is not the events seen, each once.
    WrongView {
        /// The processor whose view it is.
        processor: u16,
        /// The least event with a wrong number of appearances.
        event: u16,
    },
    /// 21: section 6 is not the memory stores, each once.
    WrongStoreOrder {
        /// The least event with a wrong number of appearances.
        event: u16,
    },
    /// 22: section 7 is not the locked entries, each once.
    WrongLockedOrder {
        /// The least entry of section 4 with a wrong number of appearances.
        entry: u16,
    },
    /// 23: a section 8 pair is not a write and a read of one place and value. The first such pair.
    WrongSource {
        /// The event that is said to write.
        writing: u16,
        /// The event that is said to read.
        reading: u16,
    },
    /// 24: a processor's view order and happens-before together have a cycle.
    Cycle {
        /// The least such processor.
        processor: u16,
        /// The cycle, a shortest one, begun at its least event; the last has a step to the first.
        events: &'e [u16],
    },
    /// 25: in a view, another write of the place stands after a write and before the read that
    /// takes it.
    Overwritten {
        /// The processor whose view it is.
        processor: u16,
        /// The write that is the read's source.
        write: u16,
        /// The read.
        read: u16,
        /// The other write.
        between: u16,
    },
    /// 26: a read without a source cannot have read the initial value of its place.
    WrongInitial {
        /// The processor that sees the read.
        processor: u16,
        /// The read.
        read: u16,
        /// Why it cannot.
        why: NotInitial,
    },
    /// 27: in a view, an event stands between two events of a locked instruction that it is not of.
    Torn {
        /// The processor whose view it is.
        processor: u16,
        /// The event of the instruction that stands earlier.
        earlier: u16,
        /// The event between.
        between: u16,
        /// The event of the instruction that stands later.
        later: u16,
    },
    /// 28: the length of the list is not the number of events.
    WrongLength,
    /// 29: the list has a number that is no event.
    NoSuchEvent {
        /// Where it stands in the list, from 0.
        position: u16,
    },
    /// 30: the list does not hold each event once.
    NotEachOnce {
        /// The least event with a wrong number of appearances.
        event: u16,
    },
    /// 31: in the list, an event stands between two events of a locked instruction that it is not
    /// of.
    BrokenUp {
        /// The event of the instruction that stands earlier.
        earlier: u16,
        /// The event between.
        between: u16,
        /// The event of the instruction that stands later.
        later: u16,
    },
    /// 32: the list turns round what section 3 or preserved order has.
    Reversed {
        /// The event that has to stand earlier.
        earlier: u16,
        /// The event that has to stand later.
        later: u16,
    },
    /// 33: a read's value differs from the memory state.
    WrongValue {
        /// The first such read in the list.
        read: u16,
    },
}

/// Why a read without a source cannot have read the initial value of its place.
///
/// ```
/// use reefmitten::{check, Evidence, NotInitial, Refusal};
///
/// let record = std::fs::read("../records/s2-late.bin").unwrap();
/// let mut evidence = Evidence::new();
/// let refusal = check(&record, &mut evidence).unwrap_err();
/// let why = NotInitial::WrittenBefore { write: 0 };
/// assert_eq!(refusal, Refusal::WrongInitial { processor: 1, read: 3, why });
/// assert_eq!(why.code(), 2);
/// ```
#[derive(Clone, Copy, Debug, PartialEq, Eq)]
pub enum NotInitial {
    /// Code 0: the place has no initial value.
    NoValue,
    /// Code 1: the initial value is another than the read's.
    OtherValue,
    /// Code 2: a write of the place stands before the read in the processor's view.
    WrittenBefore {
        /// The least such write.
        write: u16,
    },
}

impl NotInitial {
    /// The code of the evidence, 0 to 2.
    #[must_use]
    pub const fn code(self) -> u16 {
        match self {
            NotInitial::NoValue => 0,
            NotInitial::OtherValue => 1,
            NotInitial::WrittenBefore { .. } => 2,
        }
    }

    /// From what stands in the evidence behind processor and read.
    fn decode(evidence: &[u16]) -> Option<NotInitial> {
        match *evidence {
            [0] => Some(NotInitial::NoValue),
            [1] => Some(NotInitial::OtherValue),
            [2, write] => Some(NotInitial::WrittenBefore { write }),
            _ => None,
        }
    }
}

impl<'e> Refusal<'e> {
    /// The rule that is broken.
    #[must_use]
    pub const fn rule(&self) -> Rule {
        match self {
            Refusal::ShortBuffer => Rule::ShortBuffer,
            Refusal::CutShort { .. } => Rule::CutShort,
            Refusal::CountOverLimit { .. } => Rule::CountOverLimit,
            Refusal::FieldOutOfRange { .. } => Rule::FieldOutOfRange,
            Refusal::BytesLeftOver { .. } => Rule::BytesLeftOver,
            Refusal::JoinedInstructions { .. } => Rule::JoinedInstructions,
            Refusal::CausalityCycle { .. } => Rule::CausalityCycle,
            Refusal::UnorderedRegister { .. } => Rule::UnorderedRegister,
            Refusal::EventlessLock { .. } => Rule::EventlessLock,
            Refusal::RepeatedLock { .. } => Rule::RepeatedLock,
            Refusal::WrongView { .. } => Rule::WrongView,
            Refusal::WrongStoreOrder { .. } => Rule::WrongStoreOrder,
            Refusal::WrongLockedOrder { .. } => Rule::WrongLockedOrder,
            Refusal::WrongSource { .. } => Rule::WrongSource,
            Refusal::Cycle { .. } => Rule::Cycle,
            Refusal::Overwritten { .. } => Rule::Overwritten,
            Refusal::WrongInitial { .. } => Rule::WrongInitial,
            Refusal::Torn { .. } => Rule::Torn,
            Refusal::WrongLength => Rule::WrongLength,
            Refusal::NoSuchEvent { .. } => Rule::NoSuchEvent,
            Refusal::NotEachOnce { .. } => Rule::NotEachOnce,
            Refusal::BrokenUp { .. } => Rule::BrokenUp,
            Refusal::Reversed { .. } => Rule::Reversed,
            Refusal::WrongValue { .. } => Rule::WrongValue,
        }
    }

    /// What an answer and its evidence say; none where the evidence is not that rule's. Every
    /// entry of the evidence goes into the refusal, so nothing of it is lost.
    pub(crate) fn decode(rule: Rule, evidence: &'e [u16]) -> Option<Refusal<'e>> {
        Some(match (rule, evidence) {
            (Rule::ShortBuffer, []) => Refusal::ShortBuffer,
            (Rule::CutShort, &[section]) => Refusal::CutShort { section },
            (Rule::CountOverLimit, &[section]) => Refusal::CountOverLimit { section },
            (Rule::FieldOutOfRange, &[section]) => Refusal::FieldOutOfRange { section },
            (Rule::BytesLeftOver, &[section]) => Refusal::BytesLeftOver { section },
            (Rule::JoinedInstructions, &[from, to]) => Refusal::JoinedInstructions { from, to },
            (Rule::CausalityCycle, events @ [_, ..]) => Refusal::CausalityCycle { events },
            (Rule::UnorderedRegister, &[event, other]) => {
                Refusal::UnorderedRegister { event, other }
            }
            (Rule::EventlessLock, &[entry]) => Refusal::EventlessLock { entry },
            (Rule::RepeatedLock, &[entry]) => Refusal::RepeatedLock { entry },
            (Rule::WrongView, &[processor, event]) => Refusal::WrongView { processor, event },
            (Rule::WrongStoreOrder, &[event]) => Refusal::WrongStoreOrder { event },
            (Rule::WrongLockedOrder, &[entry]) => Refusal::WrongLockedOrder { entry },
            (Rule::WrongSource, &[writing, reading]) => Refusal::WrongSource { writing, reading },
            (Rule::Cycle, [processor, events @ ..]) if !events.is_empty() => {
                Refusal::Cycle { processor: *processor, events }
            }
            (Rule::Overwritten, &[processor, write, read, between]) => {
                Refusal::Overwritten { processor, write, read, between }
            }
            (Rule::WrongInitial, [processor, read, why @ ..]) => {
                let why = NotInitial::decode(why)?;
                Refusal::WrongInitial { processor: *processor, read: *read, why }
            }
            (Rule::Torn, &[processor, earlier, between, later]) => {
                Refusal::Torn { processor, earlier, between, later }
            }
            (Rule::WrongLength, []) => Refusal::WrongLength,
            (Rule::NoSuchEvent, &[position]) => Refusal::NoSuchEvent { position },
            (Rule::NotEachOnce, &[event]) => Refusal::NotEachOnce { event },
            (Rule::BrokenUp, &[earlier, between, later]) => {
                Refusal::BrokenUp { earlier, between, later }
            }
            (Rule::Reversed, &[earlier, later]) => Refusal::Reversed { earlier, later },
            (Rule::WrongValue, &[read]) => Refusal::WrongValue { read },
            _ => return None,
        })
    }
}

impl Error for Refusal<'_> {}

impl From<Refusal<'_>> for Rule {
    fn from(refusal: Refusal) -> Rule {
        refusal.rule()
    }
}

#[cfg(test)]
mod tests {
    use super::*;

    /// How many entries of evidence a rule has, at least and at most. For a cycle the most is the
    /// buffer's length: that one has no more than 64 events is the archive's to know.
    fn lengths(rule: Rule) -> (usize, usize) {
        match rule.number() {
            1 | 28 => (0, 0),
            2..=5 | 13 | 14 | 21 | 22 | 29 | 30 | 33 => (1, 1),
            10 | 12 | 20 | 23 | 32 => (2, 2),
            11 => (1, 65),
            24 => (2, 65),
            25 | 27 => (4, 4),
            31 => (3, 3),
            number => unreachable!("{number}"),
        }
    }

    /// A rule is decoded from as many entries as its evidence has, and from no other number. What
    /// 26 has depends on its code: see the next test.
    #[test]
    fn evidence_of_the_right_length_only() {
        for rule in Rule::ALL.into_iter().filter(|&rule| rule != Rule::WrongInitial) {
            let (least, most) = lengths(rule);
            for length in 0..=65 {
                let refusal = Refusal::decode(rule, &[7; 65][..length]);
                let expected = (least..=most).contains(&length).then_some(rule);
                assert_eq!(refusal.map(|refusal| refusal.rule()), expected, "{length}");
            }
        }
    }

    /// Each entry goes under its own name. The records of `tests/` have evidence with equal
    /// numbers; here all differ.
    #[test]
    fn entries_under_their_names() {
        let (processor, events) = (1, &[2, 3, 4][..]);
        let expected = [
            Refusal::JoinedInstructions { from: 1, to: 2 },
            Refusal::CausalityCycle { events: &[1, 2, 3, 4] },
            Refusal::UnorderedRegister { event: 1, other: 2 },
            Refusal::WrongView { processor, event: 2 },
            Refusal::WrongSource { writing: 1, reading: 2 },
            Refusal::Cycle { processor, events },
            Refusal::Overwritten { processor, write: 2, read: 3, between: 4 },
            Refusal::Torn { processor, earlier: 2, between: 3, later: 4 },
            Refusal::BrokenUp { earlier: 1, between: 2, later: 3 },
            Refusal::Reversed { earlier: 1, later: 2 },
        ];
        for refusal in expected {
            let rule = refusal.rule();
            let length = lengths(rule).1.min(4);
            assert_eq!(Refusal::decode(rule, &[1, 2, 3, 4][..length]), Some(refusal));
        }
    }

    #[test]
    fn codes_of_a_wrong_initial_value() {
        let why = |evidence| match Refusal::decode(Rule::WrongInitial, evidence) {
            Some(Refusal::WrongInitial { processor: 1, read: 3, why }) => Some(why),
            _ => None,
        };
        assert_eq!(why(&[1, 3, 0]), Some(NotInitial::NoValue));
        assert_eq!(why(&[1, 3, 1]), Some(NotInitial::OtherValue));
        assert_eq!(why(&[1, 3, 2, 9]), Some(NotInitial::WrittenBefore { write: 9 }));
        for wrong in [&[1, 3][..], &[1, 3, 0, 9], &[1, 3, 2], &[1, 3, 3], &[1, 3, 2, 9, 9]] {
            assert_eq!(why(wrong), None);
        }
    }
}
