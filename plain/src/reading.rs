//! Reading a record of form 1: answers 2 to 5, each with its section.
//!
//! All fields of one section that are out of range give the same answer, and
//! an entry that is cut short is the last there is. So the whole entries of a
//! section are judged together, and only then whether one is missing.

/// Sections 2 to 9 of a record that has the form, as parts of the record.
pub struct Sections<'a> {
    pub processors: usize,
    pub events: &'a [[u8; 12]],
    pub causality: &'a [[u8; 2]],
    pub locked: &'a [[u8; 4]],
    pub initial: &'a [[u8; 12]],
    pub store_order: &'a [u8],
    pub locked_order: &'a [u8],
    pub reads_from: &'a [[u8; 2]],
    pub views: [&'a [u8]; 4],
}

/// Answer 2 to 5 and the section it was met in.
type Unreadable = (u16, u16);

/// Bytes of one entry of sections 2 to 8.
const ENTRY_SIZES: [usize; 7] = [12, 2, 4, 12, 1, 1, 2];

/// The first eight bytes of an entry, for all fields but its value.
#[inline(always)]
pub fn head(entry: &[u8; 12]) -> u64 {
    entry.first_chunk().map_or(0, |bytes| u64::from_le_bytes(*bytes))
}

/// The value of an event or of an initial value.
#[inline(always)]
pub fn value(entry: &[u8; 12]) -> u32 {
    entry.last_chunk().map_or(0, |bytes| u32::from_le_bytes(*bytes))
}

/// The bytes that are not read yet.
struct Cursor<'a> {
    rest: &'a [u8],
}

impl<'a> Cursor<'a> {
    #[inline(always)]
    fn byte(&mut self, section: u16) -> Result<u8, Unreadable> {
        let (&byte, rest) = self.rest.split_first().ok_or((2, section))?;
        self.rest = rest;
        Ok(byte)
    }

    #[inline(always)]
    fn count(&mut self, section: u16) -> Result<usize, Unreadable> {
        let (bytes, rest) = self.rest.split_first_chunk().ok_or((2, section))?;
        self.rest = rest;
        Ok(u16::from_le_bytes(*bytes) as usize)
    }

    /// `count` entries, of which the whole ones are in range.
    #[inline(always)]
    fn entries<const SIZE: usize>(
        &mut self,
        section: u16,
        count: usize,
        in_range: impl Fn(&'a [[u8; SIZE]]) -> bool,
    ) -> Result<&'a [[u8; SIZE]], Unreadable> {
        let (part, rest, cut) = match self.rest.split_at_checked(count * SIZE) {
            Some((part, rest)) => (part, rest, false),
            None => (self.rest, self.rest, true),
        };
        let whole = part.as_chunks().0;
        if !in_range(whole) {
            return Err((4, section));
        }
        if cut {
            return Err((2, section));
        }
        self.rest = rest;
        Ok(whole)
    }

    /// A section of at most `most` entries: its count, the limit, the entries.
    #[inline(always)]
    fn section<const SIZE: usize>(
        &mut self,
        section: u16,
        most: usize,
        in_range: impl Fn(&'a [[u8; SIZE]]) -> bool,
    ) -> Result<&'a [[u8; SIZE]], Unreadable> {
        let count = self.count(section)?;
        if count > most {
            return Err((3, section));
        }
        self.entries(section, count, in_range)
    }
}

/// Whether every byte is below the bound, eight at a time; the bound is at
/// most 64. A byte is below it if neither the byte nor its low seven bits
/// lifted by 128 less the bound have the high bit.
#[inline(always)]
fn all_below(bytes: &[u8], bound: usize) -> bool {
    const EACH: u64 = 0x0101_0101_0101_0101;
    let lift = (128 - bound as u64) * EACH;
    let judge = |word: u64| word | ((word & (0x7f * EACH)) + lift);
    let mut judged = 0;
    let (words, tail) = bytes.as_chunks();
    for word in words {
        judged |= judge(u64::from_le_bytes(*word));
    }
    match bytes.last_chunk() {
        Some(word) => judged |= judge(u64::from_le_bytes(*word)),
        None => {
            for &byte in tail {
                judged |= judge(byte as u64);
            }
        }
    }
    judged & (0x80 * EACH) == 0
}

/// An event's fields: processor below P, a kind, and the kind's sort of place.
#[inline(always)]
fn event_in_range(entry: &[u8; 12], processors: usize) -> bool {
    let head = head(entry);
    if (head & 0xff) >= processors as u64 {
        return false;
    }
    match head >> 9 & 0x7f {
        0 => head >> 32 & 3 == 0,
        1 => head >> 32 < 15,
        _ => false,
    }
}

/// A locked entry: processor below P, and the zero above it zero.
#[inline(always)]
fn locked_in_range(entry: &[u8; 4], processors: usize) -> bool {
    (u16::from_le_bytes([entry[0], entry[1]]) as usize) < processors
}

/// An initial value: for memory processor, class and zeros are all zero and
/// the address divisible by 4; for a register the processor is below P.
#[inline(always)]
fn initial_in_range(entry: &[u8; 12], processors: usize) -> bool {
    let head = head(entry);
    let memory = head & 0x3_ffff_ffff == 0;
    let register = (head as u32).wrapping_sub(0x100) < processors as u32 && head >> 32 < 15;
    memory || register
}

/// Reads a record: its sections, or the first thing reading meets that is wrong.
#[inline(always)]
pub fn read(record: &[u8]) -> Result<Sections<'_>, Unreadable> {
    let mut cursor = Cursor { rest: record };
    if cursor.byte(0)? != 1 {
        return Err((4, 0));
    }
    let p = cursor.byte(1)? as usize;
    if p > 4 {
        return Err((3, 1));
    }
    let events = cursor.section(2, 64, |all| all.iter().all(|e| event_in_range(e, p)))?;
    let n = events.len();
    let causality = cursor.section::<2>(3, 128, |all| all_below(all.as_flattened(), n))?;
    let locked = cursor.section(4, 16, |all| all.iter().all(|e| locked_in_range(e, p)))?;
    let g = locked.len();
    let initial = cursor.section(5, 64, |all| all.iter().all(|e| initial_in_range(e, p)))?;
    let store_order = cursor.section::<1>(6, 64, |all| all_below(all.as_flattened(), n))?;
    let locked_order = cursor.section::<1>(7, 16, |all| all_below(all.as_flattened(), g))?;
    let reads_from = cursor.section::<2>(8, 64, |all| all_below(all.as_flattened(), n))?;
    if cursor.count(9)? != p {
        return Err((4, 9));
    }
    let mut views: [&[u8]; 4] = [&[]; 4];
    for view in views.iter_mut().take(p) {
        let seen = cursor.section::<1>(9, 64, |all| all_below(all.as_flattened(), n))?;
        *view = seen.as_flattened();
    }
    if !cursor.rest.is_empty() {
        return Err((5, 10));
    }
    Ok(Sections {
        processors: p,
        events,
        causality,
        locked,
        initial,
        store_order: store_order.as_flattened(),
        locked_order: locked_order.as_flattened(),
        reads_from,
        views,
    })
}

impl<'a> Sections<'a> {
    /// The views, one for each processor.
    #[inline(always)]
    pub fn views(&self) -> &[&'a [u8]] {
        self.views.get(..self.processors).unwrap_or(&[])
    }

    /// Where section 6 begins, the first section of the witness.
    pub fn witness_start(&self) -> usize {
        2 + 4 * 2
            + 12 * self.events.len()
            + 2 * self.causality.len()
            + 4 * self.locked.len()
            + 12 * self.initial.len()
    }

    /// The value of an event.
    #[inline(always)]
    pub fn value_of(&self, e: usize) -> u32 {
        self.events.get(e).map_or(0, value)
    }
}

/// Reading alone: 0, or 2 to 5 with the section.
pub fn form(record: &[u8]) -> (u16, u16) {
    match read(record) {
        Ok(_) => (0, 0),
        Err(unreadable) => unreadable,
    }
}

/// The view question: the answer, and the part of the record that is the view.
pub fn view(record: &[u8], processor: u16) -> (u16, usize, usize) {
    let sections = match read(record) {
        Ok(sections) => sections,
        Err((answer, _)) => return (answer, 0, 0),
    };
    let views = sections.views();
    match views.get(processor as usize..) {
        Some([asked, later @ ..]) => {
            let after: usize = later.iter().map(|view| 2 + view.len()).sum();
            (0, record.len() - after - asked.len(), asked.len())
        }
        _ => (4, 0, 0),
    }
}

/// The two-byte count at a place of the record.
fn count_at(record: &[u8], place: usize) -> Option<usize> {
    let (bytes, _) = record.get(place..)?.split_first_chunk()?;
    Some(u16::from_le_bytes(*bytes) as usize)
}

/// The first entry of sections 2 to 9 that starts at `at` or later, as section,
/// place and length. For a record that has the form.
pub fn next_entry(record: &[u8], at: usize) -> Option<(u16, usize, usize)> {
    let mut place = 2;
    for (section, size) in (2..).zip(ENTRY_SIZES) {
        let count = count_at(record, place)?;
        let start = place + 2;
        let earlier = at.saturating_sub(start).div_ceil(size);
        if earlier < count {
            return Some((section, start + earlier * size, size));
        }
        place = start + count * size;
    }
    let views = count_at(record, place)?;
    place += 2;
    for _ in 0..views {
        let length = 2 + count_at(record, place)?;
        if place >= at {
            return Some((9, place, length));
        }
        place += length;
    }
    None
}
