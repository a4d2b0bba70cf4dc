//! Cycles of a relation: whether there is one, and the shortest.

use crate::bits::{first, greatest, least, only, Ascending, Rows};

/// Finishes events depth first, an event after everything it leads to.
pub struct Search<'a> {
    rows: &'a Rows,
    /// Events that are finished.
    pub done: u64,
    /// The events that led to the one at hand.
    path: [u8; 64],
}

impl<'a> Search<'a> {
    pub fn over(rows: &'a Rows) -> Search<'a> {
        Search { rows, done: 0, path: [0; 64] }
    }

    /// Finishes `top`. False if that needs an event of `waiting`, which must
    /// come after it, or runs into a cycle.
    #[inline(always)]
    pub fn finish(&mut self, top: usize, waiting: u64) -> bool {
        let need = self.rows[top & 63] & !self.done;
        if need != 0 && !self.finish_needs(top, need, waiting) {
            return false;
        }
        self.done |= only(top);
        true
    }

    /// Finishes all that `top` needs. The greatest event is taken first: events
    /// mostly stand in program order, so that it seldom needs another.
    fn finish_needs(&mut self, top: usize, mut need: u64, waiting: u64) -> bool {
        let mut done = self.done;
        let mut open = waiting | only(top);
        let mut depth = 0;
        let mut at = top;
        loop {
            if need & open != 0 {
                return false;
            }
            while need != 0 {
                let next = greatest(need);
                let inner = self.rows[next] & !done;
                if inner == 0 {
                    done |= only(next);
                    need ^= only(next);
                    continue;
                }
                open |= only(next);
                if inner & open != 0 {
                    return false;
                }
                self.path[depth & 63] = at as u8;
                depth += 1;
                at = next;
                need = inner;
            }
            if depth == 0 {
                self.done = done;
                return true;
            }
            done |= only(at);
            depth -= 1;
            at = (self.path[depth & 63] & 63) as usize;
            need = self.rows[at] & !done;
        }
    }

    /// Finishes all events of the set. False if there is a cycle.
    pub fn finish_all(&mut self, set: u64) -> bool {
        loop {
            let rest = set & !self.done;
            if rest == 0 {
                return true;
            }
            if !self.finish(greatest(rest), 0) {
                return false;
            }
        }
    }
}

/// How a walk from an event in ever more steps comes out.
enum Walk {
    /// Back at the event after so many steps.
    Closed(usize),
    /// Nowhere new to go.
    Ended,
    /// At the bound.
    Bounded,
}

/// The walk itself: level k holds the events that are first met after k steps.
struct Levels {
    level: [u64; 64],
}

impl Levels {
    /// Walks from `start` through `alive` in fewer than `bound` steps.
    fn walk(&mut self, rows: &Rows, start: usize, alive: u64, bound: usize) -> Walk {
        let mut left = alive;
        let mut front = only(start);
        for length in 1..bound {
            self.level[(length - 1) & 63] = front;
            let mut next = 0;
            for e in Ascending(front) {
                next |= rows[e];
            }
            if next & only(start) != 0 {
                return Walk::Closed(length);
            }
            front = next & left;
            if front == 0 {
                return Walk::Ended;
            }
            left ^= front;
        }
        Walk::Bounded
    }

    /// Keeps in each level only events that lie on a cycle of this length.
    fn keep_closing(&mut self, rows: &Rows, start: usize, length: usize) {
        let mut goal = only(start);
        for level in self.level[..length].iter_mut().rev() {
            let mut kept = 0;
            for e in Ascending(*level) {
                if rows[e] & goal != 0 {
                    kept |= only(e);
                }
            }
            *level = kept;
            goal = kept;
        }
    }
}

/// Leaves out events that lead to none of the others, and so on downwards.
fn without_ends(rows: &Rows, mut alive: u64) -> u64 {
    let mut left = alive;
    while left != 0 {
        let e = greatest(left);
        left ^= only(e);
        if rows[e] & alive == 0 {
            alive ^= only(e);
        }
    }
    alive
}

/// Writes the shortest cycle on the first n events, begun at its least event,
/// the least of these; gives its length, 0 where there is no cycle.
///
/// Starts are tried ascending, each through events not below it, and only a
/// shorter cycle displaces one found: so the start is the least event on any
/// shortest cycle. From there the least event that still closes in time is
/// taken at each step; a shortest closed walk repeats no event.
#[cold]
pub fn shortest(rows: &Rows, n: usize, cycle: &mut [u16]) -> usize {
    let mut levels = Levels { level: [0; 64] };
    let mut alive = without_ends(rows, first(n));
    let (mut best, mut start, mut through) = (n + 1, 0, 0);
    while alive != 0 {
        let s = least(alive);
        let walk = levels.walk(rows, s, alive, best);
        if let Walk::Closed(length) = walk {
            (best, start, through) = (length, s, alive);
        }
        alive ^= only(s);
        if !matches!(walk, Walk::Bounded) {
            alive = without_ends(rows, alive);
        }
    }
    if best > n {
        return 0;
    }
    levels.walk(rows, start, through, best + 1);
    levels.keep_closing(rows, start, best);
    let mut from = !0;
    for (entry, level) in cycle.iter_mut().zip(&levels.level[..best]) {
        let e = least(level & from);
        *entry = e as u16;
        from = rows[e];
    }
    best
}
