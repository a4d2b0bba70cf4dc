//! Each answer is decoded to its refusal, with the evidence under the right names, and said in
//! words.

mod records;

use records::{event, memory, slot_case, Record, LOAD, READ, STORE, WRITE};
use reefmitten::{check, replay, Evidence, NotARule, NotInitial, Refusal, Rule};

/// The check refuses the record so, and in these words.
fn refused(record: &[u8], expected: Refusal, words: &str) {
    let mut evidence = Evidence::new();
    let refusal = check(record, &mut evidence).unwrap_err();
    assert_eq!((refusal, refusal.to_string().as_str()), (expected, words));
}

/// Likewise the replay of S2 by a list.
fn replay_refused(list: &[u16], expected: Refusal, words: &str) {
    let mut evidence = Evidence::new();
    let refusal = replay(&slot_case("s2"), list, &mut evidence).unwrap_err();
    assert_eq!((refusal, refusal.to_string().as_str()), (expected, words));
}

/// One instruction of one processor: a register read, a load, and a write of the register.
const INSTRUCTION: [(u8, u32, u32); 3] = [(READ, 3, 0), (LOAD, 100, 0), (WRITE, 3, 1)];

fn instruction(causality: &[[u8; 2]], locked: &[[u8; 4]]) -> Vec<u8> {
    let events = INSTRUCTION.map(|(kind, place, value)| event(0, kind, 0, place, value));
    let views = &[&[0, 1, 2][..]];
    Record { processors: 1, events: &events, causality, locked, views, ..Record::default() }.bytes()
}

#[test]
fn answers_2_to_5() {
    let s1 = slot_case("s1");
    let words = "the record ends before section 9 (views) is complete";
    refused(&s1[..101], Refusal::CutShort { section: 9 }, words);
    let words = "a count of section 1 (processors) is over its limit";
    refused(&[1, 5], Refusal::CountOverLimit { section: 1 }, words);
    let words = "a field of section 0 (form) is out of range";
    refused(&[2], Refusal::FieldOutOfRange { section: 0 }, words);
    let words = "the record goes on after its last section";
    refused(&[s1, vec![0]].concat(), Refusal::BytesLeftOver { section: 10 }, words);
}

#[test]
fn answer_10() {
    let events = [event(0, LOAD, 0, 100, 0), event(0, LOAD, 1, 100, 0)];
    let causality = &[[0, 0], [1, 0], [0, 1]];
    let views = &[&[0, 1][..]];
    let record = Record { processors: 1, events: &events, causality, views, ..Record::default() };
    let words = "section 3 (causality inside an instruction): events 1 and 0 are of two \
                 instructions";
    refused(&record.bytes(), Refusal::JoinedInstructions { from: 1, to: 0 }, words);
}

#[test]
fn answer_11() {
    let words = "section 3 (causality inside an instruction) goes in a circle: event 0 before 2 \
                 before 1 before 0";
    let record = instruction(&[[0, 2], [2, 1], [1, 0]], &[]);
    refused(&record, Refusal::CausalityCycle { events: &[0, 2, 1] }, words);
    let words = "section 3 (causality inside an instruction) goes in a circle: event 1 before 1";
    let record = instruction(&[[1, 1]], &[]);
    refused(&record, Refusal::CausalityCycle { events: &[1] }, words);
}

#[test]
fn answers_12_to_14() {
    let words = "events 0 and 2 of one instruction use one register, at least one writes it, and \
                 section 3 (causality inside an instruction) does not say which comes first";
    refused(&instruction(&[], &[]), Refusal::UnorderedRegister { event: 0, other: 2 }, words);
    let words = "section 4 (locked instructions): entry 1 has no event";
    let record = instruction(&[[0, 2]], &[[0; 4], [0, 0, 9, 0]]);
    refused(&record, Refusal::EventlessLock { entry: 1 }, words);
    let words = "section 4 (locked instructions): entry 1 repeats an earlier one";
    let record = instruction(&[[0, 2]], &[[0; 4], [0; 4]]);
    refused(&record, Refusal::RepeatedLock { entry: 1 }, words);
}

#[test]
fn answers_20_to_23() {
    let words = "the view of processor 0 has event 2 a wrong number of times: it has to be the \
                 processor's own events and all memory stores, each once";
    let expected = Refusal::WrongView { processor: 0, event: 2 };
    refused(&slot_case("s1-view-short"), expected, words);
    let words = "section 6 (store order) has event 2 a wrong number of times: it has to be all \
                 memory stores, each once";
    refused(&slot_case("s1-store-missing"), Refusal::WrongStoreOrder { event: 2 }, words);
    let words = "section 7 (locked order) has entry 0 a wrong number of times: it has to be all \
                 locked instructions, each once";
    let record = instruction(&[[0, 2]], &[[0; 4]]);
    refused(&record, Refusal::WrongLockedOrder { entry: 0 }, words);
    let words = "section 8 (reads-from): events 0 and 3 are not a write and a read of one place \
                 and value";
    refused(&slot_case("s1-source"), Refusal::WrongSource { writing: 0, reading: 3 }, words);
}

#[test]
fn answers_24_25_and_27() {
    let words = "the view of processor 1 and happens-before together go in a circle: event 2 \
                 before 3 before 2";
    let expected = Refusal::Cycle { processor: 1, events: &[2, 3] };
    refused(&slot_case("s2-turned"), expected, words);
    let words = "in the view of processor 0, event 2 reads what event 0 wrote, but event 1 writes \
                 the same place between them";
    let expected = Refusal::Overwritten { processor: 0, write: 0, read: 2, between: 1 };
    refused(&slot_case("overwritten"), expected, words);
    let words = "in the view of processor 1, event 2 stands between events 0 and 1 of one locked \
                 instruction";
    let expected = Refusal::Torn { processor: 1, earlier: 0, between: 2, later: 1 };
    refused(&slot_case("torn"), expected, words);
}

/// A store of 1 at an address, and then a load of 100 that gives 1 and takes no store.
fn unsourced(initial: &[[u8; 12]], at: u32) -> Vec<u8> {
    let events = [event(0, STORE, 0, at, 1), event(0, LOAD, 1, 100, 1)];
    let store_order = &[[0]];
    let views = &[&[0, 1][..]];
    Record { processors: 1, events: &events, initial, store_order, views, ..Record::default() }
        .bytes()
}

#[test]
fn answer_26() {
    let expected = |why| Refusal::WrongInitial { processor: 0, read: 1, why };
    let words =
        "event 1 of processor 0 has no source in section 8 (reads-from), but its place has \
                 no initial value";
    refused(&unsourced(&[], 200), expected(NotInitial::NoValue), words);
    let words = "event 1 of processor 0 has no source in section 8 (reads-from), but the initial \
                 value of its place is another";
    let record = unsourced(&[memory(100, 2)], 200);
    refused(&record, expected(NotInitial::OtherValue), words);
    let words = "event 1 of processor 0 has no source in section 8 (reads-from), but event 0 \
                 writes its place before it in the view";
    let record = unsourced(&[memory(100, 1)], 100);
    refused(&record, expected(NotInitial::WrittenBefore { write: 0 }), words);
}

#[test]
fn answers_28_to_30() {
    let words = "the list does not have as many numbers as there are events";
    replay_refused(&[], Refusal::WrongLength, words);
    replay_refused(&[0, 1, 2, 3, 0], Refusal::WrongLength, words);
    let words = "the number at position 2 of the list, from 0, is no event";
    replay_refused(&[0, 1, 4, 65535], Refusal::NoSuchEvent { position: 2 }, words);
    let words = "the list has event 1 a wrong number of times";
    replay_refused(&[0, 3, 2, 2], Refusal::NotEachOnce { event: 1 }, words);
}

#[test]
fn answer_31() {
    let mut evidence = Evidence::new();
    let refusal = replay(&slot_case("torn"), &[1, 2, 0], &mut evidence).unwrap_err();
    assert_eq!(refusal, Refusal::BrokenUp { earlier: 1, between: 2, later: 0 });
    let words = "in the list, event 2 stands between events 1 and 0 of one locked instruction";
    assert_eq!(refusal.to_string(), words);
}

#[test]
fn answers_32_and_33() {
    let words = "event 2 has to come before event 3, but the list turns them round";
    replay_refused(&[0, 1, 3, 2], Refusal::Reversed { earlier: 2, later: 3 }, words);
    let words = "event 3 reads a value that its place does not hold at that step";
    replay_refused(&[0, 1, 2, 3], Refusal::WrongValue { read: 3 }, words);
}

/// A refused replay gives 2 to 14 as the check does.
#[test]
fn a_replay_of_what_is_no_structure() {
    let record = instruction(&[[0, 2], [2, 0]], &[]);
    let mut evidence = Evidence::new();
    let expected = Refusal::CausalityCycle { events: &[0, 2] };
    assert_eq!(replay(&record, &[], &mut evidence), Err(expected));
    assert_eq!(replay(&[], &[], &mut evidence), Err(Refusal::CutShort { section: 0 }));
}

#[test]
fn rules_by_number() {
    let numbers = Rule::ALL.map(u16::from);
    let expected = (1..=5).chain(10..=14).chain(20..=33);
    assert!(numbers.into_iter().eq(expected));
    for number in 0..=u16::MAX {
        match Rule::try_from(number) {
            Ok(rule) => assert_eq!(rule.number(), number),
            Err(error) => assert!(error == NotARule(number) && !numbers.contains(&number)),
        }
    }
}

/// Every rule has its own words: a sentence that goes on one line, without its number.
#[test]
fn rules_in_words() {
    let words = Rule::ALL.map(|rule| rule.to_string());
    for (i, sentence) in words.iter().enumerate() {
        assert!(!words[..i].contains(sentence));
        assert!(sentence.chars().all(|c| c.is_ascii_alphabetic() || " ,-".contains(c)));
    }
}

/// Refusals and rules are errors as Rust has them.
#[test]
fn as_errors() {
    fn judge<'e>(evidence: &'e mut Evidence) -> Result<(), Box<dyn core::error::Error + 'e>> {
        Ok(check(&[], evidence)?)
    }
    fn judge_by_rule() -> Result<(), Rule> {
        Ok(check(&[], &mut Evidence::default())?)
    }
    let words = "the record ends before section 0 (form) is complete";
    assert_eq!(judge(&mut Evidence::new()).unwrap_err().to_string(), words);
    assert_eq!(judge_by_rule(), Err(Rule::CutShort));
}
