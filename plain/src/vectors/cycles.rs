//! Records with long cycles, and with several of one length: of section 3,
//! answer 11, and of a view and happens-before, answer 24.

use super::asking::Asker;
use super::breaks::{try_shape, Spread};
use super::Question;
use crate::sample::{Random, Record};
use crate::shapes::{random_pairs, relation, roundabout, single_way};

/// Layers of events, the first and the last of one event each, and pairs from
/// layer to layer: every way through takes as many steps.
fn layered_ways(rng: &mut Random, layers: usize, width: usize) -> (usize, Vec<(usize, usize)>) {
    let mut ways = Vec::new();
    let (mut layer, mut n) = (vec![1], 2);
    for i in 1..layers {
        let width = if i + 1 == layers { 1 } else { 1 + rng.below(width) };
        let next: Vec<usize> = (n..n + width).collect();
        n += width;
        for &b in &next {
            ways.push((rng.pick(&layer), b));
        }
        for &a in &layer {
            ways.push((a, rng.pick(&next)));
        }
        layer = next;
    }
    (n, ways)
}

fn any_numbering(rng: &mut Random, n: usize) -> Vec<u8> {
    let mut number: Vec<u8> = (0..n as u8).collect();
    rng.shuffle(&mut number);
    number
}

/// A roundabout that one processor goes, its events numbered anyhow.
fn numbered_roundabout(rng: &mut Random, looker: u8, n: usize, ways: &[(usize, usize)]) -> Record {
    let number = any_numbering(rng, n);
    let walker = (looker + 1 + rng.below(3) as u8) % 4;
    roundabout(&number, ways, looker, walker)
}

/// One instruction whose section 3 has these pairs, its events numbered anyhow.
fn numbered_relation(rng: &mut Random, n: usize, ways: &[(usize, usize)]) -> Record {
    let number = any_numbering(rng, n);
    relation(n, ways.iter().map(|&(a, b)| (number[a], number[b])).collect())
}

/// Cycles of section 3 and of a view by several ways of equal length.
fn ask_layered(asker: &mut Asker, spread: &mut Spread, layers: usize) {
    for i in 0..20 {
        let width = 1 + i as usize / 8;
        let (n, ways) = layered_ways(&mut asker.rng, layers, width);
        let record = numbered_roundabout(&mut asker.rng, i % 4, n, &ways);
        try_shape(asker, spread, &record, &[24]);
        let (n, mut ways) = layered_ways(&mut asker.rng, layers - 1, width);
        ways.push((n - 1, 1));
        let record = numbered_relation(&mut asker.rng, n, &ways);
        try_shape(asker, spread, &record, &[11]);
    }
}

/// A cycle of all n events, of section 3 and of the view of some processor.
fn ask_longest(asker: &mut Asker, n: usize) {
    let looker = asker.rng.below(4) as u8;
    let ring: Vec<(usize, usize)> = (0..n).map(|i| (i, (i + 1) % n)).collect();
    for record in [
        numbered_roundabout(&mut asker.rng, looker, n, &single_way(n)),
        numbered_relation(&mut asker.rng, n, &ring),
    ] {
        let questions = [65, 64, 80].map(|room| Question::Check { room });
        asker.add(record.bytes(), questions.to_vec());
    }
}

/// Adds all cases of cycles.
pub fn ask(asker: &mut Asker, spread: &mut Spread) {
    for layers in 2..=8 {
        ask_layered(asker, spread, layers);
    }
    for n in [12, 24, 40, 63, 64, 64] {
        ask_longest(asker, n);
    }
    for _ in 0..60 {
        let n = 2 + asker.rng.below(9);
        let record = relation(n, random_pairs(&mut asker.rng, n, 2 * n));
        try_shape(asker, spread, &record, &[11]);
    }
}
