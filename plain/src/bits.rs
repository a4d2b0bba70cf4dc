//! Sets of events as words.

/// A relation on events: row a has bit b set if a is related to b.
pub type Rows = [u64; 64];

/// The set of the one event.
#[inline(always)]
pub fn only(event: usize) -> u64 {
    1 << (event & 63)
}

/// The least event of a set that is not empty.
#[inline(always)]
pub fn least(set: u64) -> usize {
    (set.trailing_zeros() & 63) as usize
}

/// The greatest event of a set that is not empty.
#[inline(always)]
pub fn greatest(set: u64) -> usize {
    (63 ^ (set.leading_zeros() & 63)) as usize
}

/// The set of the first n events.
#[inline(always)]
pub fn first(n: usize) -> u64 {
    if n < 64 {
        (1 << n) - 1
    } else {
        !0
    }
}

/// The event a byte of the record names. Reading has shown it below 64; the
/// mask says so to the compiler.
#[inline(always)]
pub fn event(byte: u8) -> usize {
    (byte & 63) as usize
}

/// The two events a pair of the record names.
#[inline(always)]
pub fn events_of_pair(pair: &[u8; 2]) -> (usize, usize) {
    let both = u16::from_le_bytes(*pair);
    ((both & 63) as usize, (both >> 8 & 63) as usize)
}

/// The events of a set, ascending.
pub struct Ascending(pub u64);

impl Iterator for Ascending {
    type Item = usize;

    #[inline(always)]
    fn next(&mut self) -> Option<usize> {
        if self.0 == 0 {
            return None;
        }
        let e = least(self.0);
        self.0 &= self.0 - 1;
        Some(e)
    }
}

/// The least number that does not appear exactly as often as it should: once
/// if it is in `due`, else never. None if every number does.
#[cold]
pub fn least_wrong(numbers: impl Iterator<Item = usize>, due: u64) -> Option<usize> {
    let (mut once, mut again) = (0, 0);
    for number in numbers {
        again |= once & only(number);
        once |= only(number);
    }
    let wrong = (once ^ due) | again;
    (wrong != 0).then(|| least(wrong))
}
