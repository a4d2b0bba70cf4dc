//! The orders that happens-before joins, and where events stand in a list.

use crate::bits::{event, only, Ascending, Rows};
use crate::reading::Sections;
use crate::structure::Structure;

impl Structure<'_> {
    /// Adds preserved order to the rows, which hold section 3.
    #[inline(always)]
    pub fn add_preserved_order(&mut self) {
        self.facts.add_preserved_order(self.places, self.any_locked, &mut self.rows);
    }

    /// Makes the rows happens-before, save for section 8, which the rule for
    /// answer 23 adds.
    #[inline(always)]
    pub fn add_orders(&mut self, sections: &Sections) {
        self.add_preserved_order();
        self.add_store_order(sections.store_order);
        self.add_locked_order(sections.locked_order);
    }

    /// Store order relates stores of one address only.
    #[inline(always)]
    fn add_store_order(&mut self, store_order: &[u8]) {
        let mut later = 0;
        for &number in store_order.iter().rev() {
            let e = event(number);
            self.rows[e] |= later & self.places.same(e);
            later |= only(e);
        }
    }

    /// Locked order goes from every event of an instruction to every event of
    /// a later one.
    #[inline(always)]
    fn add_locked_order(&mut self, locked_order: &[u8]) {
        let mut later = 0;
        for &number in locked_order.iter().rev() {
            let instruction = self.locked[(number & 15) as usize];
            for e in Ascending(instruction) {
                self.rows[e] |= later;
            }
            later |= instruction;
        }
    }

    /// Whether in some locked instruction something else stands between two
    /// of its events that are seen.
    #[inline(always)]
    pub fn any_broken_up(&self, seen: u64, after: &Rows) -> bool {
        let locked = &self.locked[..self.locked_count.min(16)];
        locked.iter().any(|&instruction| broken_up(instruction, seen, after))
    }

    /// The least a, x, b with x between a and b of the locked instruction of
    /// both and not of it, for answers 27 and 31.
    #[cold]
    pub fn least_broken_up(&self, seen: u64, after: &Rows) -> Option<[usize; 3]> {
        for a in Ascending(self.any_locked & seen) {
            let instruction = self.facts.same_instruction(a);
            for x in Ascending(after[a] & !instruction) {
                if let Some(b) = Ascending(after[x] & instruction).next() {
                    return Some([a, x, b]);
                }
            }
        }
        None
    }
}

/// What stands after the first event of the instruction but not after its last
/// lies between them, or is the last. Events that are not seen do not count,
/// in the rows of those that are neither.
#[inline(always)]
fn broken_up(instruction: u64, seen: u64, after: &Rows) -> bool {
    let there = instruction & seen;
    if there & there.wrapping_sub(1) == 0 {
        return false;
    }
    let (mut first, mut last) = (0, !0);
    for e in Ascending(there) {
        first |= after[e];
        last &= after[e];
    }
    first & !last & seen & !instruction != 0
}

/// Fills in, for each event of a list, those that stand after it; gives all
/// that the list names. Rows of other events are left.
#[inline(always)]
pub fn stand_after(list: &[u8], after: &mut Rows) -> u64 {
    let mut named = 0;
    for &number in list.iter().rev() {
        after[event(number)] = named;
        named |= only(event(number));
    }
    named
}
