//! The slot cases of the specification, and the errors a builder falls into.

mod records;

use records::slot_case;
use reefmitten::{check, replay, Evidence, NotInitial, Refusal};

/// The check of a slot case is a refusal, or none.
fn checked(name: &str, expected: Result<(), Refusal>) {
    let mut evidence = Evidence::new();
    assert_eq!(check(&slot_case(name), &mut evidence), expected, "{name}");
}

/// Likewise the replay by a list.
fn replayed(name: &str, list: &[u16], expected: Result<(), Refusal>) {
    let mut evidence = Evidence::new();
    assert_eq!(replay(&slot_case(name), list, &mut evidence), expected, "{name} by {list:?}");
}

#[test]
fn s1() {
    assert_eq!(slot_case("s1").len(), 102);
    checked("s1", Ok(()));
    checked("s1-view-short", Err(Refusal::WrongView { processor: 0, event: 2 }));
    checked("s1-store-missing", Err(Refusal::WrongStoreOrder { event: 2 }));
    checked("s1-source", Err(Refusal::WrongSource { writing: 0, reading: 3 }));
}

#[test]
fn s2() {
    checked("s2", Err(Refusal::Cycle { processor: 1, events: &[0, 2] }));
    checked("s2-turned", Err(Refusal::Cycle { processor: 1, events: &[2, 3] }));
    let why = NotInitial::WrittenBefore { write: 0 };
    checked("s2-late", Err(Refusal::WrongInitial { processor: 1, read: 3, why }));
}

#[test]
fn overwritten_source() {
    let expected = Refusal::Overwritten { processor: 0, write: 0, read: 2, between: 1 };
    checked("overwritten", Err(expected));
}

#[test]
fn locked_instruction_torn() {
    let expected = Refusal::Torn { processor: 1, earlier: 0, between: 2, later: 1 };
    checked("torn", Err(expected));
}

#[test]
fn replays() {
    replayed("s1", &[1, 3, 0, 2], Ok(()));
    replayed("s1", &[0, 1, 2, 3], Err(Refusal::WrongValue { read: 3 }));
    replayed("s1", &[0, 3, 1, 2], Err(Refusal::WrongValue { read: 3 }));
    replayed("s2", &[1, 3, 0, 2], Err(Refusal::Reversed { earlier: 0, later: 1 }));
}

#[test]
fn least_records() {
    checked("empty", Ok(()));
    checked("nothing", Err(Refusal::CutShort { section: 0 }));
}

#[test]
fn limits() {
    checked("events-64", Ok(()));
    checked("events-65", Err(Refusal::CountOverLimit { section: 2 }));
    checked("locked-16", Ok(()));
    checked("locked-17", Err(Refusal::CountOverLimit { section: 4 }));
}

#[test]
fn a_store_may_pass_a_later_load_of_another_address() {
    checked("s1-load-first", Ok(()));
}
