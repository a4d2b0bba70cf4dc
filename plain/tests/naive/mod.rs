//! The rules once more, by brute force: every tuple in dictionary order, every
//! cycle by length. Nothing of the fast implementation is used.
#![allow(dead_code)]

pub type Refused = (u16, Vec<usize>);

#[derive(Clone, Copy, Debug)]
pub struct Event {
    pub processor: usize,
    pub kind: u8,
    pub index: u16,
    pub place: u32,
    pub value: u32,
}

#[derive(Clone, Copy, Debug)]
pub struct Initial {
    pub processor: usize,
    pub class: u8,
    pub place: u32,
    pub value: u32,
}

#[derive(Clone, Debug, Default)]
pub struct Record {
    pub processors: usize,
    pub events: Vec<Event>,
    pub causality: Vec<(usize, usize)>,
    pub locked: Vec<(usize, u16)>,
    pub initial: Vec<Initial>,
    pub store_order: Vec<usize>,
    pub locked_order: Vec<usize>,
    pub reads_from: Vec<(usize, usize)>,
    pub views: Vec<Vec<usize>>,
    /// Where section 6 begins.
    pub witness: usize,
    /// Section, place and length of each entry.
    pub entries: Vec<(u16, usize, usize)>,
}

struct Bytes<'a> {
    record: &'a [u8],
    at: usize,
}

impl Bytes<'_> {
    /// The next so many bytes as numbers, or answer 2.
    fn take(&mut self, section: u16, size: usize) -> Result<Vec<u32>, (u16, u16)> {
        if self.record.len() - self.at < size {
            return Err((2, section));
        }
        self.at += size;
        Ok(self.record[self.at - size..self.at].iter().map(|&b| b as u32).collect())
    }

    fn count(&mut self, section: u16) -> Result<usize, (u16, u16)> {
        let bytes = self.take(section, 2)?;
        Ok((bytes[0] + 256 * bytes[1]) as usize)
    }
}

fn number(bytes: &[u32]) -> u32 {
    bytes.iter().rev().fold(0, |sum, byte| sum * 256 + byte)
}

fn within(fits: bool, section: u16) -> Result<(), (u16, u16)> {
    if fits {
        Ok(())
    } else {
        Err((4, section))
    }
}

/// Reading, field by field: the record, or the answer and section met first.
pub fn read(record: &[u8]) -> Result<Record, (u16, u16)> {
    let mut bytes = Bytes { record, at: 0 };
    let mut read = Record::default();
    within(bytes.take(0, 1)?[0] == 1, 0)?;
    read.processors = bytes.take(1, 1)?[0] as usize;
    if read.processors > 4 {
        return Err((3, 1));
    }
    let most = [64, 128, 16, 64, 64, 16, 64];
    let size = [12, 2, 4, 12, 1, 1, 2];
    for section in 2..=8u16 {
        if section == 6 {
            read.witness = bytes.at;
        }
        let count = bytes.count(section)?;
        if count > most[section as usize - 2] {
            return Err((3, section));
        }
        for _ in 0..count {
            let place = bytes.at;
            let entry = bytes.take(section, size[section as usize - 2])?;
            read.entries.push((section, place, entry.len()));
            read.add_entry(section, &entry)?;
        }
    }
    within(bytes.count(9)? == read.processors, 9)?;
    for _ in 0..read.processors {
        let place = bytes.at;
        let count = bytes.count(9)?;
        if count > 64 {
            return Err((3, 9));
        }
        let mut view = Vec::new();
        for _ in 0..count {
            let e = bytes.take(9, 1)?[0] as usize;
            within(e < read.events.len(), 9)?;
            view.push(e);
        }
        read.entries.push((9, place, 2 + count));
        read.views.push(view);
    }
    if bytes.at < record.len() {
        return Err((5, 10));
    }
    Ok(read)
}

impl Record {
    fn add_entry(&mut self, section: u16, entry: &[u32]) -> Result<(), (u16, u16)> {
        let below_n = |e: u32| within((e as usize) < self.events.len(), section);
        match section {
            2 => {
                within((entry[0] as usize) < self.processors, 2)?;
                within(entry[1] <= 3, 2)?;
                let place = number(&entry[4..8]);
                within(if entry[1] <= 1 { place.is_multiple_of(4) } else { place <= 14 }, 2)?;
                self.events.push(Event {
                    processor: entry[0] as usize,
                    kind: entry[1] as u8,
                    index: number(&entry[2..4]) as u16,
                    place,
                    value: number(&entry[8..12]),
                });
            }
            3 => {
                below_n(entry[0])?;
                below_n(entry[1])?;
                self.causality.push((entry[0] as usize, entry[1] as usize));
            }
            4 => {
                within((entry[0] as usize) < self.processors, 4)?;
                within(entry[1] == 0, 4)?;
                self.locked.push((entry[0] as usize, number(&entry[2..4]) as u16));
            }
            5 => {
                let processor = entry[0] as usize;
                within(
                    if entry[1] == 0 { processor == 0 } else { processor < self.processors },
                    5,
                )?;
                within(entry[1] <= 1, 5)?;
                within(entry[2] == 0 && entry[3] == 0, 5)?;
                let place = number(&entry[4..8]);
                within(if entry[1] == 0 { place.is_multiple_of(4) } else { place <= 14 }, 5)?;
                self.initial.push(Initial {
                    processor,
                    class: entry[1] as u8,
                    place,
                    value: number(&entry[8..12]),
                });
            }
            6 => {
                below_n(entry[0])?;
                self.store_order.push(entry[0] as usize);
            }
            7 => {
                within((entry[0] as usize) < self.locked.len(), 7)?;
                self.locked_order.push(entry[0] as usize);
            }
            _ => {
                below_n(entry[0])?;
                below_n(entry[1])?;
                self.reads_from.push((entry[0] as usize, entry[1] as usize));
            }
        }
        Ok(())
    }

    pub fn n(&self) -> usize {
        self.events.len()
    }

    fn is_load(&self, e: usize) -> bool {
        self.events[e].kind == 0
    }

    fn is_store(&self, e: usize) -> bool {
        self.events[e].kind == 1
    }

    fn is_memory(&self, e: usize) -> bool {
        self.events[e].kind < 2
    }

    fn is_read(&self, e: usize) -> bool {
        self.events[e].kind == 0 || self.events[e].kind == 2
    }

    fn is_write(&self, e: usize) -> bool {
        !self.is_read(e)
    }

    fn same_place(&self, a: usize, b: usize) -> bool {
        let (x, y) = (self.events[a], self.events[b]);
        match (self.is_memory(a), self.is_memory(b)) {
            (true, true) => x.place == y.place,
            (false, false) => x.processor == y.processor && x.place == y.place,
            _ => false,
        }
    }

    fn same_instruction(&self, a: usize, b: usize) -> bool {
        let (x, y) = (self.events[a], self.events[b]);
        x.processor == y.processor && x.index == y.index
    }

    fn earlier_in_program(&self, a: usize, b: usize) -> bool {
        let (x, y) = (self.events[a], self.events[b]);
        x.processor == y.processor && x.index < y.index
    }

    fn names(&self, entry: usize, e: usize) -> bool {
        self.locked[entry] == (self.events[e].processor, self.events[e].index)
    }

    pub fn is_locked(&self, e: usize) -> bool {
        (0..self.locked.len()).any(|entry| self.names(entry, e))
    }

    pub fn causes(&self, a: usize, b: usize) -> bool {
        self.causality.contains(&(a, b))
    }

    pub fn preserved(&self, a: usize, b: usize) -> bool {
        self.earlier_in_program(a, b)
            && (!self.is_memory(a) && self.same_place(a, b)
                || self.is_load(a) && self.is_load(b)
                || self.is_load(a) && self.is_store(b)
                || self.is_store(a) && self.is_store(b)
                || self.is_store(a) && self.is_load(b) && self.same_place(a, b)
                || self.is_memory(a) && self.is_locked(b)
                || self.is_locked(a) && self.is_memory(b))
    }

    fn store_ordered(&self, a: usize, b: usize) -> bool {
        stands_before(&self.store_order, a, b) && self.same_place(a, b)
    }

    fn locked_ordered(&self, a: usize, b: usize) -> bool {
        let order = &self.locked_order;
        (0..order.len()).any(|i| {
            (i + 1..order.len()).any(|j| self.names(order[i], a) && self.names(order[j], b))
        })
    }

    pub fn happens_before(&self, a: usize, b: usize) -> bool {
        self.causes(a, b)
            || self.preserved(a, b)
            || self.store_ordered(a, b)
            || self.locked_ordered(a, b)
            || self.reads_from.contains(&(a, b))
    }

    fn sees(&self, p: usize, e: usize) -> bool {
        self.events[e].processor == p || self.is_store(e)
    }

    fn initial_value(&self, e: usize) -> Option<u32> {
        self.initial
            .iter()
            .find(|i| {
                i.place == self.events[e].place
                    && match self.is_memory(e) {
                        true => i.class == 0,
                        false => i.class == 1 && i.processor == self.events[e].processor,
                    }
            })
            .map(|i| i.value)
    }
}

fn times(list: &[usize], number: usize) -> usize {
    list.iter().filter(|&&x| x == number).count()
}

/// Whether some appearance of a stands earlier than some appearance of b.
fn stands_before(list: &[usize], a: usize, b: usize) -> bool {
    let first = list.iter().position(|&x| x == a);
    let last = list.iter().rposition(|&x| x == b);
    matches!((first, last), (Some(i), Some(j)) if i < j)
}

/// The least number below the bound that the list does not have as often as due.
fn least_wrong(list: &[usize], bound: usize, due: impl Fn(usize) -> bool) -> Option<usize> {
    (0..bound).find(|&x| times(list, x) != due(x) as usize)
}

/// Above so many events, paths that cannot close in time are not followed.
const UNPRUNED: usize = 8;

/// The shortest cycle begun at its least event, the least of these: every
/// sequence of distinct events in order of length, then dictionary order.
pub fn shortest_cycle(n: usize, related: impl Fn(usize, usize) -> bool) -> Option<Vec<usize>> {
    let table: Vec<Vec<bool>> = (0..n).map(|a| (0..n).map(|b| related(a, b)).collect()).collect();
    let distance = if n > UNPRUNED { distances(&table) } else { vec![vec![1; n]; n] };
    for length in 1..=n {
        for start in 0..n {
            let mut path = vec![start];
            if extend(&mut path, length, &table, &distance) {
                return Some(path);
            }
        }
    }
    None
}

/// The least number of steps from each event to each, at least one step.
fn distances(table: &[Vec<bool>]) -> Vec<Vec<usize>> {
    let n = table.len();
    let mut d: Vec<Vec<usize>> =
        table.iter().map(|row| row.iter().map(|&x| if x { 1 } else { 1000 }).collect()).collect();
    for k in 0..n {
        for i in 0..n {
            for j in 0..n {
                d[i][j] = d[i][j].min(d[i][k] + d[k][j]);
            }
        }
    }
    d
}

fn extend(
    path: &mut Vec<usize>,
    length: usize,
    table: &[Vec<bool>],
    distance: &[Vec<usize>],
) -> bool {
    let (start, last) = (path[0], path[path.len() - 1]);
    if path.len() == length {
        return table[last][start];
    }
    if distance[last][start] > length - path.len() + 1 {
        return false;
    }
    for next in start + 1..table.len() {
        if table[last][next] && !path.contains(&next) {
            path.push(next);
            if extend(path, length, table, distance) {
                return true;
            }
            path.pop();
        }
    }
    false
}

/// A rule on records: its answer, and what it shows where it is broken.
type Rule = (u16, fn(&Record) -> Option<Vec<usize>>);

const STRUCTURE_RULES: [Rule; 5] = [
    (10, Record::joined_instructions),
    (11, |record| shortest_cycle(record.n(), |a, b| record.causes(a, b))),
    (12, Record::unordered_registers),
    (13, Record::locked_nothing),
    (14, Record::locked_again),
];

const WITNESS_RULES: [Rule; 4] = [
    (20, Record::wrong_view),
    (21, Record::wrong_store_order),
    (22, Record::wrong_locked_order),
    (23, Record::unfit_source),
];

const AXIOMS: [Rule; 4] = [
    (24, Record::cycle_in_view),
    (25, Record::overwritten),
    (26, Record::unsourced),
    (27, Record::locked_broken_up),
];

/// A rule on the record and a list that holds each event once.
type ListRule = (u16, fn(&Record, &[usize]) -> Option<Vec<usize>>);

const LIST_RULES: [ListRule; 3] =
    [(31, Record::broken_up), (32, Record::out_of_order), (33, Record::wrong_value)];

/// The first refusal, of rules that are judged in turn.
fn first_refusal(
    mut judged: impl Iterator<Item = (u16, Option<Vec<usize>>)>,
) -> Result<(), Refused> {
    let found = judged.find_map(|(answer, shown)| shown.map(|shown| (answer, shown)));
    found.map_or(Ok(()), Err)
}

fn one(found: Option<usize>) -> Option<Vec<usize>> {
    found.map(|number| vec![number])
}

impl Record {
    fn first_broken(&self, rules: &[Rule]) -> Result<(), Refused> {
        first_refusal(rules.iter().map(|(answer, rule)| (*answer, rule(self))))
    }

    /// Rules 10 to 14.
    pub fn structure(&self) -> Result<(), Refused> {
        self.first_broken(&STRUCTURE_RULES)
    }

    /// Rules 20 to 23.
    pub fn witness_rules(&self) -> Result<(), Refused> {
        self.first_broken(&WITNESS_RULES)
    }

    /// Rules 24 to 27.
    pub fn axioms(&self) -> Result<(), Refused> {
        self.first_broken(&AXIOMS)
    }

    /// Every rule of the check that is broken, each judged by itself.
    pub fn broken(&self) -> Vec<u16> {
        let rules = STRUCTURE_RULES.iter().chain(&WITNESS_RULES).chain(&AXIOMS);
        let broken = rules.filter(|(_, rule)| rule(self).is_some());
        broken.map(|rule| rule.0).collect()
    }

    /// Of 31 to 33 every rule that a list of each event once breaks.
    pub fn broken_by(&self, list: &[usize]) -> Vec<u16> {
        let broken = LIST_RULES.iter().filter(|(_, rule)| rule(self, list).is_some());
        broken.map(|rule| rule.0).collect()
    }

    fn joined_instructions(&self) -> Option<Vec<usize>> {
        let joining = self.causality.iter().find(|&&(a, b)| !self.same_instruction(a, b));
        joining.map(|&(a, b)| vec![a, b])
    }

    fn unordered_registers(&self) -> Option<Vec<usize>> {
        let n = self.n();
        for a in 0..n {
            for b in a + 1..n {
                let one_register =
                    !self.is_memory(a) && self.same_place(a, b) && self.same_instruction(a, b);
                let writing = self.is_write(a) || self.is_write(b);
                if one_register && writing && !self.causes(a, b) && !self.causes(b, a) {
                    return Some(vec![a, b]);
                }
            }
        }
        None
    }

    fn locked_nothing(&self) -> Option<Vec<usize>> {
        let empty = |&entry: &usize| !(0..self.n()).any(|e| self.names(entry, e));
        one((0..self.locked.len()).find(empty))
    }

    fn locked_again(&self) -> Option<Vec<usize>> {
        let repeats = |&entry: &usize| self.locked[..entry].contains(&self.locked[entry]);
        one((0..self.locked.len()).find(repeats))
    }

    fn wrong_view(&self) -> Option<Vec<usize>> {
        (0..self.processors).find_map(|p| {
            let wrong = least_wrong(&self.views[p], self.n(), |e| self.sees(p, e));
            wrong.map(|e| vec![p, e])
        })
    }

    fn wrong_store_order(&self) -> Option<Vec<usize>> {
        one(least_wrong(&self.store_order, self.n(), |e| self.is_store(e)))
    }

    fn wrong_locked_order(&self) -> Option<Vec<usize>> {
        one(least_wrong(&self.locked_order, self.locked.len(), |_| true))
    }

    fn unfit_source(&self) -> Option<Vec<usize>> {
        let unfit = self.reads_from.iter().find(|&&(w, r)| {
            !(self.is_write(w)
                && self.is_read(r)
                && self.same_place(w, r)
                && self.events[w].value == self.events[r].value)
        });
        unfit.map(|&(w, r)| vec![w, r])
    }

    fn cycle_in_view(&self) -> Option<Vec<usize>> {
        (0..self.processors).find_map(|p| {
            let cycle = shortest_cycle(self.n(), |a, b| {
                stands_before(&self.views[p], a, b) || self.happens_before(a, b)
            });
            cycle.map(|cycle| [vec![p], cycle].concat())
        })
    }

    fn overwritten(&self) -> Option<Vec<usize>> {
        let n = self.n();
        for p in 0..self.processors {
            let view = &self.views[p];
            for w in 0..n {
                for r in 0..n {
                    let pair = self.reads_from.contains(&(w, r));
                    if !pair || !self.sees(p, w) || !self.sees(p, r) {
                        continue;
                    }
                    for x in 0..n {
                        let another = x != w && self.is_write(x) && self.same_place(x, w);
                        if another && stands_before(view, w, x) && stands_before(view, x, r) {
                            return Some(vec![p, w, r, x]);
                        }
                    }
                }
            }
        }
        None
    }

    fn unsourced(&self) -> Option<Vec<usize>> {
        let n = self.n();
        for p in 0..self.processors {
            for r in 0..n {
                let sourced = self.reads_from.iter().any(|pair| pair.1 == r);
                if !self.is_read(r) || !self.sees(p, r) || sourced {
                    continue;
                }
                match self.initial_value(r) {
                    None => return Some(vec![p, r, 0]),
                    Some(value) if value != self.events[r].value => return Some(vec![p, r, 1]),
                    _ => {}
                }
                for x in 0..n {
                    let written = self.is_write(x) && self.same_place(x, r);
                    if written && stands_before(&self.views[p], x, r) {
                        return Some(vec![p, r, 2, x]);
                    }
                }
            }
        }
        None
    }

    fn locked_broken_up(&self) -> Option<Vec<usize>> {
        (0..self.processors).find_map(|p| {
            let shown = self.broken_up(&self.views[p]);
            shown.map(|shown| [vec![p], shown].concat())
        })
    }

    fn broken_up(&self, list: &[usize]) -> Option<Vec<usize>> {
        let n = self.n();
        for a in 0..n {
            for x in 0..n {
                for b in 0..n {
                    let instruction = self.is_locked(a) && self.same_instruction(a, b);
                    if instruction
                        && !self.same_instruction(a, x)
                        && stands_before(list, a, x)
                        && stands_before(list, x, b)
                    {
                        return Some(vec![a, x, b]);
                    }
                }
            }
        }
        None
    }

    /// Rules 28 to 31.
    pub fn list_rules(&self, list: &[u16]) -> Result<Vec<usize>, Refused> {
        let n = self.n();
        if list.len() != n {
            return Err((28, vec![]));
        }
        let list: Vec<usize> = list.iter().map(|&e| e as usize).collect();
        if let Some(position) = list.iter().position(|&e| e >= n) {
            return Err((29, vec![position]));
        }
        if let Some(e) = least_wrong(&list, n, |_| true) {
            return Err((30, vec![e]));
        }
        if let Some(shown) = self.broken_up(&list) {
            return Err((31, shown));
        }
        Ok(list)
    }

    /// Rules 32 and 33.
    pub fn replay_rules(&self, list: &[usize]) -> Result<(), Refused> {
        let rules = LIST_RULES.iter().filter(|rule| rule.0 != 31);
        first_refusal(rules.map(|(answer, rule)| (*answer, rule(self, list))))
    }

    fn out_of_order(&self, list: &[usize]) -> Option<Vec<usize>> {
        let n = self.n();
        for a in 0..n {
            for b in 0..n {
                let before = self.causes(a, b) || self.preserved(a, b);
                if before && stands_before(list, b, a) {
                    return Some(vec![a, b]);
                }
            }
        }
        None
    }

    fn wrong_value(&self, list: &[usize]) -> Option<Vec<usize>> {
        for (i, &r) in list.iter().enumerate() {
            let held = match self.last_write(list, i) {
                Some(w) => Some(self.events[w].value),
                None => self.initial_value(r),
            };
            if self.is_read(r) && held != Some(self.events[r].value) {
                return Some(vec![r]);
            }
        }
        None
    }

    /// The last write before a position of the place of the event there.
    fn last_write(&self, list: &[usize], position: usize) -> Option<usize> {
        let e = list[position];
        list[..position].iter().rev().copied().find(|&w| self.is_write(w) && self.same_place(w, e))
    }

    /// The witness read off from a list, as the bytes of sections 6 to 9.
    pub fn witness_from(&self, list: &[usize]) -> Vec<u8> {
        let mut bytes = Vec::new();
        let section = |numbers: Vec<usize>, entries: usize| -> Vec<u8> {
            let mut bytes = vec![(entries % 256) as u8, (entries / 256) as u8];
            bytes.extend(numbers.iter().map(|&x| x as u8));
            bytes
        };
        let stores: Vec<usize> = list.iter().copied().filter(|&e| self.is_store(e)).collect();
        bytes.extend(section(stores.clone(), stores.len()));
        let mut locked = Vec::new();
        for &e in list {
            for entry in 0..self.locked.len() {
                if self.names(entry, e) && !locked.contains(&entry) {
                    locked.push(entry);
                }
            }
        }
        bytes.extend(section(locked.clone(), locked.len()));
        let mut pairs = Vec::new();
        for (i, &r) in list.iter().enumerate() {
            if let (true, Some(w)) = (self.is_read(r), self.last_write(list, i)) {
                pairs.extend([w, r]);
            }
        }
        bytes.extend(section(pairs.clone(), pairs.len() / 2));
        bytes.extend(section(vec![], self.processors));
        for p in 0..self.processors {
            let view: Vec<usize> = list.iter().copied().filter(|&e| self.sees(p, e)).collect();
            bytes.extend(section(view.clone(), view.len()));
        }
        bytes
    }
}

/// The first refusal, or 0 without evidence.
fn shown(judged: Result<(), Refused>) -> (u16, Vec<u16>) {
    match judged {
        Ok(()) => (0, vec![]),
        Err((answer, evidence)) => (answer, evidence.iter().map(|&x| x as u16).collect()),
    }
}

fn read_or_refuse(record: &[u8]) -> Result<Record, Refused> {
    read(record).map_err(|(answer, section)| (answer, vec![section as usize]))
}

pub fn form(record: &[u8]) -> (u16, u16) {
    match read(record) {
        Ok(_) => (0, 0),
        Err(unreadable) => unreadable,
    }
}

pub fn structure(record: &[u8]) -> (u16, Vec<u16>) {
    shown(read_or_refuse(record).and_then(|record| record.structure()))
}

pub fn check(record: &[u8], room: usize) -> (u16, Vec<u16>) {
    if room < 65 {
        return (1, vec![]);
    }
    shown(read_or_refuse(record).and_then(|record| {
        record.structure()?;
        record.witness_rules()?;
        record.axioms()
    }))
}

pub fn replay(record: &[u8], list: &[u16], room: usize) -> (u16, Vec<u16>) {
    if room < 65 {
        return (1, vec![]);
    }
    shown(read_or_refuse(record).and_then(|record| {
        record.structure()?;
        let list = record.list_rules(list)?;
        record.replay_rules(&list)
    }))
}

pub fn read_off(bytes: &[u8], list: &[u16], room: usize) -> (u16, Vec<u8>) {
    if room < 2346 {
        return (1, vec![]);
    }
    let written = read_or_refuse(bytes).and_then(|record| {
        record.structure()?;
        let list = record.list_rules(list)?;
        Ok([&bytes[..record.witness], &record.witness_from(&list)].concat())
    });
    match written {
        Ok(written) => (0, written),
        Err((answer, _)) => (answer, vec![]),
    }
}

pub fn order_table(record: &[u8], room: usize) -> (u16, Vec<u64>) {
    let record = match read(record) {
        Ok(record) => record,
        Err((answer, _)) => return (answer, vec![]),
    };
    let n = record.n();
    if room < n {
        return (1, vec![]);
    }
    if let Err((answer, _)) = record.structure().and_then(|()| record.witness_rules()) {
        return (answer, vec![]);
    }
    let row = |a| (0..n).filter(|&b| record.happens_before(a, b)).map(|b| 1u64 << b).sum();
    (0, (0..n).map(row).collect())
}

pub fn view(record: &[u8], p: u16) -> (u16, Vec<u8>) {
    match read(record) {
        Err((answer, _)) => (answer, vec![]),
        Ok(record) if p as usize >= record.processors => (4, vec![]),
        Ok(record) => (0, record.views[p as usize].iter().map(|&e| e as u8).collect()),
    }
}
