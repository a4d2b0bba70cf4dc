//! Rules and refusals in plain words.

use crate::{NotInitial, Refusal, Rule};
use core::fmt::{Display, Formatter, Result};

impl Display for Rule {
    fn fmt(&self, f: &mut Formatter) -> Result {
        f.write_str(match self {
            Rule::ShortBuffer => "a lent buffer is too short for the result",
            Rule::CutShort => "the record ends too early",
            Rule::CountOverLimit => "a count of the record is over its limit",
            Rule::FieldOutOfRange => "a field is out of range",
            Rule::BytesLeftOver => "the record goes on after its last section",
            Rule::JoinedInstructions => "causality inside an instruction joins two instructions",
            Rule::CausalityCycle => "causality inside an instruction goes in a circle",
            Rule::UnorderedRegister => {
                "events of one instruction use one register, at least one writes it, and nothing \
                 says which comes first"
            }
            Rule::EventlessLock => "a locked instruction has no event",
            Rule::RepeatedLock => "a locked instruction is entered twice",
            Rule::WrongView => "a view is not the events that its processor sees, each once",
            Rule::WrongStoreOrder => "the store order is not the memory stores, each once",
            Rule::WrongLockedOrder => "the locked order is not the locked instructions, each once",
            Rule::WrongSource => {
                "a reads-from pair is not a write and a read of one place and value"
            }
            Rule::Cycle => "a view and happens-before together go in a circle",
            Rule::Overwritten => "a read takes a value that was overwritten before it",
            Rule::WrongInitial => "a read without a source cannot have read the initial value",
            Rule::Torn => "a view has another event inside a locked instruction",
            Rule::WrongLength => "the list does not have as many numbers as there are events",
            Rule::NoSuchEvent => "the list has a number that is no event",
            Rule::NotEachOnce => "the list does not hold each event once",
            Rule::BrokenUp => "the list has another event inside a locked instruction",
            Rule::Reversed => "the list turns round an order that has to be kept",
            Rule::WrongValue => "a read has a value that memory does not hold at its step",
        })
    }
}

impl Display for Refusal<'_> {
    fn fmt(&self, f: &mut Formatter) -> Result {
        match *self {
            // Nothing but the rule is to be said.
            Refusal::ShortBuffer | Refusal::BytesLeftOver { .. } | Refusal::WrongLength => {
                self.rule().fmt(f)
            }
            Refusal::CutShort { section } => {
                write!(f, "the record ends before {} is complete", Section(section))
            }
            Refusal::CountOverLimit { section } => {
                write!(f, "a count of {} is over its limit", Section(section))
            }
            Refusal::FieldOutOfRange { section } => {
                write!(f, "a field of {} is out of range", Section(section))
            }
            Refusal::JoinedInstructions { from, to } => {
                write!(f, "{}: events {from} and {to} are of two instructions", Section(3))
            }
            Refusal::CausalityCycle { events } => {
                write!(f, "{} goes in a circle: {}", Section(3), Circle(events))
            }
            Refusal::UnorderedRegister { event, other } => write!(
                f,
                "events {event} and {other} of one instruction use one register, at least one \
                 writes it, and {} does not say which comes first",
                Section(3)
            ),
            Refusal::EventlessLock { entry } => {
                write!(f, "{}: entry {entry} has no event", Section(4))
            }
            Refusal::RepeatedLock { entry } => {
                write!(f, "{}: entry {entry} repeats an earlier one", Section(4))
            }
            Refusal::WrongView { processor, event } => write!(
                f,
                "the view of processor {processor} has event {event} a wrong number of times: it \
                 has to be the processor's own events and all memory stores, each once"
            ),
            Refusal::WrongStoreOrder { event } => write!(
                f,
                "{} has event {event} a wrong number of times: it has to be all memory stores, \
                 each once",
                Section(6)
            ),
            Refusal::WrongLockedOrder { entry } => write!(
                f,
                "{} has entry {entry} a wrong number of times: it has to be all locked \
                 instructions, each once",
                Section(7)
            ),
            Refusal::WrongSource { writing, reading } => write!(
                f,
                "{}: events {writing} and {reading} are not a write and a read of one place and \
                 value",
                Section(8)
            ),
            Refusal::Cycle { processor, events } => write!(
                f,
                "the view of processor {processor} and happens-before together go in a circle: {}",
                Circle(events)
            ),
            Refusal::Overwritten { processor, write, read, between } => write!(
                f,
                "in the view of processor {processor}, event {read} reads what event {write} \
                 wrote, but event {between} writes the same place between them"
            ),
            Refusal::WrongInitial { processor, read, why } => {
                write!(
                    f,
                    "event {read} of processor {processor} has no source in {}, but {why}",
                    Section(8)
                )
            }
            Refusal::Torn { processor, earlier, between, later } => write!(
                f,
                "in the view of processor {processor}, event {between} stands between events \
                 {earlier} and {later} of one locked instruction"
            ),
            Refusal::NoSuchEvent { position } => {
                write!(f, "the number at position {position} of the list, from 0, is no event")
            }
            Refusal::NotEachOnce { event } => {
                write!(f, "the list has event {event} a wrong number of times")
            }
            Refusal::BrokenUp { earlier, between, later } => write!(
                f,
                "in the list, event {between} stands between events {earlier} and {later} of one \
                 locked instruction"
            ),
            Refusal::Reversed { earlier, later } => write!(
                f,
                "event {earlier} has to come before event {later}, but the list turns them round"
            ),
            Refusal::WrongValue { read } => {
                write!(f, "event {read} reads a value that its place does not hold at that step")
            }
        }
    }
}

impl Display for NotInitial {
    fn fmt(&self, f: &mut Formatter) -> Result {
        match self {
            NotInitial::NoValue => f.write_str("its place has no initial value"),
            NotInitial::OtherValue => f.write_str("the initial value of its place is another"),
            NotInitial::WrittenBefore { write } => {
                write!(f, "event {write} writes its place before it in the view")
            }
        }
    }
}

/// A section by number and name.
struct Section(u16);

impl Display for Section {
    fn fmt(&self, f: &mut Formatter) -> Result {
        const NAMES: [&str; 10] = [
            "form",
            "processors",
            "events",
            "causality inside an instruction",
            "locked instructions",
            "initial values",
            "store order",
            "locked order",
            "reads-from",
            "views",
        ];
        match NAMES.get(usize::from(self.0)) {
            Some(name) => write!(f, "section {} ({name})", self.0),
            None => write!(f, "section {}", self.0),
        }
    }
}

/// A cycle, with its first event again at the end, so that its last step is seen.
struct Circle<'e>(&'e [u16]);

impl Display for Circle<'_> {
    fn fmt(&self, f: &mut Formatter) -> Result {
        f.write_str("event ")?;
        for event in self.0 {
            write!(f, "{event} before ")?;
        }
        self.0.first().map_or(Ok(()), |first| first.fmt(f))
    }
}
