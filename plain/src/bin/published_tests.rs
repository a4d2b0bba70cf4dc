//! Runs the published tests, as `crates/published_tests/stdin` writes them, and
//! prints the line of each that the judge's program is held to:
//! published_tests < STDIN.

use plain::sample::{event, memory, Record, LOAD, STORE};
use plain::{check, EVIDENCE_ENTRIES};
use std::io::Read;

/// What a test came to.
#[derive(Default)]
struct Tally {
    judged: u64,
    valid: u64,
}

/// A structure: sections 0 to 5, and the value an address must end with.
#[derive(Default)]
struct Structure {
    record: Record,
    ending: Option<(u32, u32)>,
}

impl Structure {
    fn add(&mut self, words: &[&str]) {
        let n: Vec<u32> = words[1..].iter().map(|w| w.parse().expect("a number")).collect();
        let record = &mut self.record;
        match words[0] {
            "store" | "load" => {
                let kind = if words[0] == "store" { STORE } else { LOAD };
                record.events.push(event(n[0] as u8, kind, n[1] as u16, n[2], n[3]));
                record.processors = record.processors.max(n[0] as u8 + 1);
            }
            "cause" => record.causality.push((n[0] as u8, n[1] as u8)),
            "atomic" => record.locked.push((n[0] as u8, n[1] as u16)),
            "initial" => record.initial.push(memory(n[0], n[1])),
            "final" => self.ending = Some((n[0], n[1])),
            other => panic!("{other}?"),
        }
    }

    fn numbers(&self, wanted: impl Fn(usize) -> bool) -> Vec<u8> {
        (0..self.record.events.len()).filter(|&e| wanted(e)).map(|e| e as u8).collect()
    }

    fn is_store(&self, e: usize) -> bool {
        self.record.events[e].kind == STORE
    }

    /// Every choice of at most one source for each load.
    fn sources(&self) -> Vec<Vec<(u8, u8)>> {
        let mut choices = vec![vec![]];
        for r in self.numbers(|e| !self.is_store(e)) {
            let read = self.record.events[r as usize];
            for w in self.numbers(|e| self.is_store(e)) {
                let write = self.record.events[w as usize];
                if (write.place, write.value) == (read.place, read.value) {
                    let with: Vec<_> = choices
                        .iter()
                        .filter(|c| c.iter().all(|&(_, s)| s != r))
                        .cloned()
                        .collect();
                    choices.extend(with.into_iter().map(|mut c: Vec<(u8, u8)>| {
                        c.push((w, r));
                        c
                    }));
                }
            }
        }
        choices
    }

    /// Whether the store order leaves the value that the outcome names.
    fn ends(&self, stores: &[u8]) -> bool {
        let Some((place, value)) = self.ending else { return true };
        let last =
            stores.iter().rev().map(|&e| self.record.events[e as usize]).find(|e| e.place == place);
        last.is_some_and(|e| e.value == value)
    }

    fn views(&self) -> Vec<Vec<Vec<u8>>> {
        (0..self.record.processors)
            .map(|p| {
                arrangements(
                    &self.numbers(|e| self.is_store(e) || self.record.events[e].processor == p),
                )
            })
            .collect()
    }

    fn run(&self, all: bool, tally: &mut Tally) {
        let locks: Vec<u8> = (0..self.record.locked.len() as u8).collect();
        let views = self.views();
        for reads_from in self.sources() {
            for store_order in arrangements(&self.numbers(|e| self.is_store(e))) {
                for locked_order in arrangements(&locks) {
                    if !self.ends(&store_order) {
                        continue;
                    }
                    let mut record = self.record.clone();
                    record.reads_from.clone_from(&reads_from);
                    record.store_order.clone_from(&store_order);
                    record.locked_order = locked_order;
                    if all {
                        every(&mut record, &views, tally)
                    } else {
                        by_view(&mut record, &views, tally)
                    }
                }
            }
        }
    }
}

/// The arrangements of a list, in dictionary order.
fn arrangements(list: &[u8]) -> Vec<Vec<u8>> {
    if list.is_empty() {
        return vec![vec![]];
    }
    let mut found = vec![];
    for i in 0..list.len() {
        let mut rest = list.to_vec();
        let first = rest.remove(i);
        for mut tail in arrangements(&rest) {
            tail.insert(0, first);
            found.push(tail);
        }
    }
    found
}

fn judge(record: &Record, tally: &mut Tally) -> (u16, u16) {
    let mut evidence = [0; EVIDENCE_ENTRIES];
    let (answer, _) = check(&record.bytes(), &mut evidence);
    assert!(answer == 0 || (24..=27).contains(&answer), "{answer}: not a candidate");
    tally.judged += 1;
    tally.valid += (answer == 0) as u64;
    (answer, evidence[0])
}

/// Judges every choice of the views.
fn every(record: &mut Record, views: &[Vec<Vec<u8>>], tally: &mut Tally) {
    let p = record.views.len();
    if p == views.len() {
        judge(record, tally);
        return;
    }
    for view in &views[p] {
        record.views.push(view.clone());
        every(record, views, tally);
        record.views.pop();
    }
}

/// Takes each processor's views in turn as they are refused.
fn by_view(record: &mut Record, views: &[Vec<Vec<u8>>], tally: &mut Tally) {
    let mut at = vec![0; views.len()];
    loop {
        record.views = at.iter().zip(views).map(|(&i, of)| of[i].clone()).collect();
        let (answer, p) = judge(record, tally);
        at[p as usize] += 1;
        if answer == 0 || at[p as usize] == views[p as usize].len() {
            return;
        }
    }
}

/// A test: its name, what the paper says, whether all candidates are tried, its
/// structures.
type Test = (String, String, bool, Vec<Structure>);

fn tests(text: &str) -> Vec<Test> {
    let mut tests: Vec<Test> = vec![];
    let mut open = Structure::default();
    for line in text.lines().filter(|l| !l.is_empty() && !l.starts_with('#')) {
        let words: Vec<&str> = line.split(' ').collect();
        match words[0] {
            "test" => tests.push((words[1].into(), words[2].into(), words[3] == "all", vec![])),
            "end" => tests.last_mut().expect("a test").3.push(std::mem::take(&mut open)),
            _ => open.add(&words),
        }
    }
    tests
}

fn main() {
    let mut text = String::new();
    std::io::stdin().read_to_string(&mut text).expect("text");
    let tests = tests(&text);
    let mut agreed = 0;
    for (name, paper, all, structures) in &tests {
        let mut tally = Tally::default();
        structures.iter().for_each(|s| s.run(*all, &mut tally));
        let found = if tally.valid > 0 { "allowed" } else { "forbidden" };
        agreed += (found == paper) as usize;
        println!("{name} {} {} {found} {paper}", tally.judged, tally.valid);
    }
    println!("{} tests, {agreed} as published", tests.len());
}
