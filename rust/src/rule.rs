//! The rules by their numbers.

use core::error::Error;
use core::fmt;

/// A rule that a record, a list or a lent buffer breaks: every answer but 0.
///
/// ```
/// use reefmitten::Rule;
///
/// assert_eq!(Rule::Cycle.number(), 24);
/// assert_eq!(Rule::try_from(24), Ok(Rule::Cycle));
/// assert!(Rule::try_from(17).is_err());
/// ```
#[derive(Clone, Copy, Debug, PartialEq, Eq, PartialOrd, Ord, Hash)]
#[repr(u16)]
pub enum Rule {
    /// 1: a lent output buffer is too short.
    ShortBuffer = 1,
    /// 2: the record ends before or inside a field or entry that is due.
    CutShort = 2,
    /// 3: a count is over its limit.
    CountOverLimit = 3,
    /// 4: a field is out of range; for the view question also a processor that the record does not
    /// have.
    FieldOutOfRange = 4,
    /// 5: there are bytes after section 9.
    BytesLeftOver = 5,
    /// 10: a section 3 pair joins two instructions.
    JoinedInstructions = 10,
    /// 11: section 3 has a cycle.
    CausalityCycle = 11,
    /// 12: two events of one instruction at one register, one or both writing, and section 3 has
    /// neither pair.
    UnorderedRegister = 12,
    /// 13: a section 4 entry has no event.
    EventlessLock = 13,
    /// 14: a section 4 entry repeats an earlier one.
    RepeatedLock = 14,
    /// 20: a view is not the events seen, each once.
    WrongView = 20,
    /// 21: section 6 is not the memory stores, each once.
    WrongStoreOrder = 21,
    /// 22: section 7 is not the locked entries, each once.
    WrongLockedOrder = 22,
    /// 23: a section 8 pair is not a write and a read of one place and value.
    WrongSource = 23,
    /// 24: a processor's view order and happens-before together have a cycle.
    Cycle = 24,
    /// 25: in a view, another write of the place stands between a write and the read that takes it.
    Overwritten = 25,
    /// 26: a read without a source cannot have read the initial value of its place.
    WrongInitial = 26,
    /// 27: in a view, an event stands between two events of a locked instruction that it is not of.
    Torn = 27,
    /// 28: the length of the list is not the number of events.
    WrongLength = 28,
    /// 29: the list has a number that is no event.
    NoSuchEvent = 29,
    /// 30: the list does not hold each event once.
    NotEachOnce = 30,
    /// 31: in the list, an event stands between two events of a locked instruction that it is not
    /// of.
    BrokenUp = 31,
    /// 32: the list turns round what section 3 or preserved order has.
    Reversed = 32,
    /// 33: a read's value differs from the memory state.
    WrongValue = 33,
}

impl Rule {
    /// Every rule, in the order of the numbers.
    pub const ALL: [Rule; 24] = [
        Rule::ShortBuffer,
        Rule::CutShort,
        Rule::CountOverLimit,
        Rule::FieldOutOfRange,
        Rule::BytesLeftOver,
        Rule::JoinedInstructions,
        Rule::CausalityCycle,
        Rule::UnorderedRegister,
        Rule::EventlessLock,
        Rule::RepeatedLock,
        Rule::WrongView,
        Rule::WrongStoreOrder,
        Rule::WrongLockedOrder,
        Rule::WrongSource,
        Rule::Cycle,
        Rule::Overwritten,
        Rule::WrongInitial,
        Rule::Torn,
        Rule::WrongLength,
        Rule::NoSuchEvent,
        Rule::NotEachOnce,
        Rule::BrokenUp,
        Rule::Reversed,
        Rule::WrongValue,
    ];

    /// The number of the answer, 1 to 33.
    #[must_use]
    pub const fn number(self) -> u16 {
        self as u16
    }
}

impl From<Rule> for u16 {
    fn from(rule: Rule) -> u16 {
        rule.number()
    }
}

impl TryFrom<u16> for Rule {
    type Error = NotARule;

    /// The rule of a number. 0 is no rule: it is the answer where none is broken.
    fn try_from(number: u16) -> Result<Rule, NotARule> {
        Rule::ALL.into_iter().find(|rule| rule.number() == number).ok_or(NotARule(number))
    }
}

impl Error for Rule {}

/// A number that no rule has.
///
/// ```
/// use reefmitten::{NotARule, Rule};
///
/// assert_eq!(Rule::try_from(0), Err(NotARule(0)));
/// assert_eq!(NotARule(17).to_string(), "there is no rule 17");
/// ```
#[derive(Clone, Copy, Debug, PartialEq, Eq)]
pub struct NotARule(
    /// The number.
    pub u16,
);

impl fmt::Display for NotARule {
    fn fmt(&self, f: &mut fmt::Formatter) -> fmt::Result {
        write!(f, "there is no rule {}", self.0)
    }
}

impl Error for NotARule {}
