//! Lent buffers: too short ones, what is left untouched, and results that are parts of what was
//! lent.

mod records;

use records::{event, slot_case, Record, LOAD, STORE};
use reefmitten::{check, entries, order_table, raw, read_off, replay, view};
use reefmitten::{Evidence, Refusal, Rule, EVIDENCE_ENTRIES, LONGEST_RECORD, MOST_EVENTS};

/// Whether a part lies in a whole, at a place.
fn is_part<T>(part: &[T], whole: &[T], at: usize) -> bool {
    core::ptr::eq(part, &whole[at..at + part.len()])
}

#[test]
fn evidence_too_short() {
    let s2 = slot_case("s2");
    for room in 0..EVIDENCE_ENTRIES {
        let mut evidence = [7; EVIDENCE_ENTRIES];
        assert_eq!(raw::check(&s2, &mut evidence[..room]), (1, 0));
        assert_eq!(raw::check(&[], &mut evidence[..room]), (1, 0));
        assert_eq!(raw::replay(&s2, &[], &mut evidence[..room]), (1, 0));
        assert_eq!(evidence, [7; EVIDENCE_ENTRIES]);
    }
}

#[test]
fn entries_past_the_evidence_are_untouched() {
    let s2 = slot_case("s2");
    let mut evidence = [7; 80];
    assert_eq!(raw::check(&s2, &mut evidence), (24, 3));
    assert_eq!(evidence[..3], [1, 0, 2]);
    assert_eq!(raw::replay(&s2, &[1, 3, 0, 2], &mut evidence), (32, 2));
    assert_eq!(evidence[..3], [0, 1, 2]);
    assert_eq!(evidence[3..], [7; 77]);
}

#[test]
fn read_off_too_short() {
    let s1 = slot_case("s1");
    let mut out = [7; LONGEST_RECORD - 1];
    for room in [0, 1, 102, LONGEST_RECORD - 1] {
        assert_eq!(raw::read_off(&s1, &[1, 3, 0, 2], &mut out[..room]), (1, 0));
        assert_eq!(read_off(&[], &[], &mut out[..room]), Err(Rule::ShortBuffer));
    }
    assert_eq!(out, [7; LONGEST_RECORD - 1]);
}

#[test]
fn a_refused_read_off_is_untouched() {
    let mut out = [7; LONGEST_RECORD];
    let torn = slot_case("torn");
    assert_eq!(read_off(&torn, &[0, 2, 1], &mut out), Err(Rule::BrokenUp));
    assert_eq!(read_off(&torn, &[0, 2, 2], &mut out), Err(Rule::NotEachOnce));
    assert_eq!(read_off(&torn, &[0, 2, 3], &mut out), Err(Rule::NoSuchEvent));
    assert_eq!(read_off(&torn, &[0, 2], &mut out), Err(Rule::WrongLength));
    assert_eq!(read_off(&torn[..9], &[0, 1, 2], &mut out), Err(Rule::CutShort));
    assert_eq!(out, [7; LONGEST_RECORD]);
}

#[test]
fn a_read_off_is_a_part_of_what_was_lent() {
    let s1 = slot_case("s1");
    let mut out = [7; LONGEST_RECORD + 1];
    let lent = out.as_ptr();
    let written = read_off(&s1, &[1, 3, 0, 2], &mut out).unwrap();
    assert_eq!((written.as_ptr(), written.len()), (lent, 102));
    assert_eq!(written[..92], s1[..92]);
    assert_eq!(written[92..], [3, 0, 1, 0, 2, 3, 0, 3, 0, 2]);
    assert_eq!(out[102..], [7; LONGEST_RECORD + 1 - 102]);
}

/// A list that breaks 32 is read off, and the check refuses what is read off.
#[test]
fn a_read_off_stops_at_31() {
    let mut out = [0; LONGEST_RECORD];
    let written = read_off(&slot_case("s2"), &[1, 3, 0, 2], &mut out).unwrap();
    let mut evidence = Evidence::new();
    let expected = Refusal::Cycle { processor: 0, events: &[0, 1] };
    assert_eq!(check(written, &mut evidence), Err(expected));
}

#[test]
fn order_table_too_short() {
    let s2 = slot_case("s2");
    let mut table = [7; 4];
    for room in 0..4 {
        assert_eq!(order_table(&s2, &mut table[..room]), Err(Rule::ShortBuffer));
    }
    let short = slot_case("s1-view-short");
    assert_eq!(order_table(&short, &mut table[..3]), Err(Rule::ShortBuffer));
    assert_eq!(order_table(&short, &mut table), Err(Rule::WrongView));
    assert_eq!(order_table(&s2[..50], &mut table[..0]), Err(Rule::CutShort));
    assert_eq!(table, [7; 4]);
}

#[test]
fn an_order_table_is_a_part_of_what_was_lent() {
    let s2 = slot_case("s2");
    let mut table = [7; MOST_EVENTS];
    let lent = table.as_ptr();
    let rows = order_table(&s2, &mut table).unwrap();
    assert_eq!(rows.as_ptr(), lent);
    assert_eq!(rows, [0b0110, 0, 0b1000, 0]);
    assert_eq!(table[4..], [7; MOST_EVENTS - 4]);
    assert_eq!(order_table(&s2, &mut [7; 4]).map(<[u64]>::len), Ok(4));
    assert_eq!(order_table(&slot_case("empty"), &mut []), Ok(&[][..]));
    let rows = order_table(&slot_case("events-64"), &mut table).unwrap();
    assert_eq!((rows.len(), rows[0], rows[63]), (64, u64::MAX - 1, 0));
}

#[test]
fn a_view_is_a_part_of_the_record() {
    let s1 = slot_case("s1");
    assert!(is_part(view(&s1, 0).unwrap(), &s1, 94));
    assert!(is_part(view(&s1, 1).unwrap(), &s1, 99));
    assert_eq!((view(&s1, 0), view(&s1, 1)), (Ok(&[0, 1, 2][..]), Ok(&[2, 3, 0][..])));
    let empty = Record { processors: 1, views: &[&[]], ..Record::default() }.bytes();
    assert!(is_part(view(&empty, 0).unwrap(), &empty, 20));
}

#[test]
fn a_view_of_no_processor() {
    let s1 = slot_case("s1");
    for processor in [2, 3, 255, 256, 257, u16::MAX] {
        assert_eq!(view(&s1, processor), Err(Rule::FieldOutOfRange));
        assert_eq!(view(&s1[..101], processor), Err(Rule::CutShort));
    }
    assert_eq!(view(&slot_case("empty"), 0), Err(Rule::FieldOutOfRange));
}

/// The longest evidence fills the buffer. Processor 0 sees event 63 and then its store, event 0;
/// event 1 reads that store, and 1 to 63 are one instruction, each causing the next.
#[test]
fn a_cycle_is_a_part_of_the_evidence() {
    let mut events = [event(1, LOAD, 0, 100, 1); 64];
    events[0] = event(0, STORE, 0, 100, 1);
    events[63] = event(1, STORE, 0, 200, 1);
    let chain: Vec<[u8; 2]> = (1..63).map(|e| [e, e + 1]).collect();
    let all: Vec<u8> = (0..64).collect();
    let record = Record {
        processors: 2,
        events: &events,
        causality: &chain,
        store_order: &[[0], [63]],
        reads_from: &[[0, 1]],
        views: &[&[63, 0], &all],
        ..Record::default()
    };
    let circle: Vec<u16> = (0..64).collect();
    let mut evidence = Evidence::new();
    let lent = core::ptr::from_ref(&evidence).cast::<u16>();
    let refusal = check(&record.bytes(), &mut evidence).unwrap_err();
    assert_eq!(refusal, Refusal::Cycle { processor: 0, events: &circle });
    let Refusal::Cycle { events, .. } = refusal else { unreachable!() };
    assert_eq!(events.as_ptr(), lent.wrapping_add(1));
}

/// Every operation takes every damaged S2: no answer is outside the list, no part outside of what
/// was lent.
#[test]
fn damaged_records() {
    let s2 = slot_case("s2");
    for at in 0..s2.len() {
        judged(&s2[..at]);
        for value in [0, 1, 2, 3, 4, 5, 64, 65, 128, 255] {
            let mut damaged = s2.clone();
            damaged[at] = value;
            judged(&damaged);
        }
    }
}

/// All typed operations on one record; that they agree where they have to.
fn judged(record: &[u8]) {
    let (mut evidence, mut out, mut table) = (Evidence::new(), [0; LONGEST_RECORD], [0; 64]);
    let checked = check(record, &mut evidence).map_err(|refusal| refusal.rule());
    let read = entries(record).map(|all| all.map(|entry| entry.bytes.len()).sum::<usize>());
    let formless = checked.err().filter(|rule| rule.number() <= 5);
    assert_eq!(read.err(), formless);
    assert_eq!(view(record, 9).err(), formless.or(Some(Rule::FieldOutOfRange)));
    let tabled = order_table(record, &mut table).err();
    assert_eq!(tabled, checked.err().filter(|rule| rule.number() < 24));
    let list = [1, 3, 0, 2];
    let replayed = replay(record, &list, &mut evidence).map_err(|refusal| refusal.rule());
    match read_off(record, &list, &mut out) {
        Ok(written) => assert_eq!(check(written, &mut evidence).is_ok(), replayed.is_ok()),
        Err(rule) => assert_eq!(replayed, Err(rule)),
    }
}
