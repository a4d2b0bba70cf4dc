//! The archive's functions, and the calls to them: all unsafe code of this package.
//!
//! Why each call is sound. The archive is proved to return, and to read and write nothing but what
//! it is lent, for every byte string and every lent buffer; `include/reefmitten.h` says what it
//! asks of a caller. A slice's pointer is never null, is aligned and has so many entries behind it,
//! also where the slice is empty; what is written to comes from a `&mut` or is a local, so it
//! overlaps nothing else. No pointer is kept and there is no state, so threads may call at once.

extern "C" {
    fn reefmitten_check(
        record: *const u8,
        record_len: usize,
        evidence: *mut u16,
        evidence_len: usize,
        written: *mut usize,
    ) -> u16;

    fn reefmitten_replay(
        record: *const u8,
        record_len: usize,
        list: *const u16,
        list_len: usize,
        evidence: *mut u16,
        evidence_len: usize,
        written: *mut usize,
    ) -> u16;

    fn reefmitten_read_off(
        record: *const u8,
        record_len: usize,
        list: *const u16,
        list_len: usize,
        out: *mut u8,
        out_len: usize,
        written: *mut usize,
    ) -> u16;

    fn reefmitten_order_table(
        record: *const u8,
        record_len: usize,
        table: *mut u64,
        table_len: usize,
    ) -> u16;

    fn reefmitten_view(
        record: *const u8,
        record_len: usize,
        processor: u8,
        start: *mut usize,
        length: *mut usize,
    ) -> u16;

    fn reefmitten_open(record: *const u8, record_len: usize, bytes: *mut usize) -> u16;

    fn reefmitten_next(
        record: *const u8,
        bytes: usize,
        at: usize,
        start: *mut usize,
        length: *mut usize,
    ) -> u16;
}

/// The check: the answer and how many entries of evidence were written.
///
/// The evidence stands in the first entries of the buffer; all others are untouched. A buffer of
/// fewer than [`EVIDENCE_ENTRIES`](crate::EVIDENCE_ENTRIES) gets answer 1 and is untouched.
///
/// ```
/// use reefmitten::raw;
///
/// let record = std::fs::read("../records/s2.bin").unwrap();
/// let mut evidence = [7; 65];
/// assert_eq!(raw::check(&record, &mut evidence), (24, 3));
/// assert_eq!(evidence[..4], [1, 0, 2, 7]);
/// assert_eq!(raw::check(&record, &mut evidence[..64]), (1, 0));
/// ```
#[must_use]
pub fn check(record: &[u8], evidence: &mut [u16]) -> (u16, usize) {
    let mut written = 0;
    // Sound: see the top of this file.
    let answer = unsafe {
        reefmitten_check(
            record.as_ptr(),
            record.len(),
            evidence.as_mut_ptr(),
            evidence.len(),
            &mut written,
        )
    };
    (answer, written)
}

/// The replay of the record's events in the order of the list: the answer and how many entries of
/// evidence were written, as for [`check`].
///
/// ```
/// use reefmitten::raw;
///
/// let record = std::fs::read("../records/s1.bin").unwrap();
/// let mut evidence = [7; 65];
/// assert_eq!(raw::replay(&record, &[1, 3, 0, 2], &mut evidence), (0, 0));
/// assert_eq!(raw::replay(&record, &[0, 1, 2, 3], &mut evidence), (33, 1));
/// assert_eq!(evidence[..2], [3, 7]);
/// ```
#[must_use]
pub fn replay(record: &[u8], list: &[u16], evidence: &mut [u16]) -> (u16, usize) {
    let mut written = 0;
    // Sound: see the top of this file.
    let answer = unsafe {
        reefmitten_replay(
            record.as_ptr(),
            record.len(),
            list.as_ptr(),
            list.len(),
            evidence.as_mut_ptr(),
            evidence.len(),
            &mut written,
        )
    };
    (answer, written)
}

/// The read-off: the answer and how many bytes were written, 0 on a refusal.
///
/// On answer 0 the record stands in the first bytes of the buffer; all others, and all bytes on a
/// refusal, are untouched. A buffer shorter than [`LONGEST_RECORD`](crate::LONGEST_RECORD) gets
/// answer 1, however short the record would be.
///
/// ```
/// use reefmitten::raw;
///
/// let record = std::fs::read("../records/s1.bin").unwrap();
/// let mut out = [0; 2346];
/// assert_eq!(raw::read_off(&record, &[1, 3, 0, 2], &mut out), (0, 102));
/// assert_eq!(raw::read_off(&record, &[1, 3, 0, 2], &mut out[..2345]), (1, 0));
/// ```
#[must_use]
pub fn read_off(record: &[u8], list: &[u16], out: &mut [u8]) -> (u16, usize) {
    let mut written = 0;
    // Sound: see the top of this file.
    let answer = unsafe {
        reefmitten_read_off(
            record.as_ptr(),
            record.len(),
            list.as_ptr(),
            list.len(),
            out.as_mut_ptr(),
            out.len(),
            &mut written,
        )
    };
    (answer, written)
}

/// The order table: the answer.
///
/// On answer 0 word e has bit k set exactly if event e happens directly before event k, for each
/// event e; words past the events, and all words on a refusal, are untouched. A table with fewer
/// words than the record has events gets answer 1.
///
/// ```
/// use reefmitten::raw;
///
/// let record = std::fs::read("../records/s2.bin").unwrap();
/// let mut table = [7; 5];
/// assert_eq!(raw::order_table(&record, &mut table), 0);
/// assert_eq!(table, [0b0110, 0, 0b1000, 0, 7]);
/// assert_eq!(raw::order_table(&record, &mut table[..3]), 1);
/// ```
#[must_use]
pub fn order_table(record: &[u8], table: &mut [u64]) -> u16 {
    // Sound: see the top of this file.
    unsafe {
        reefmitten_order_table(record.as_ptr(), record.len(), table.as_mut_ptr(), table.len())
    }
}

/// The view question: the answer, where in the record the processor's view starts, and how many
/// events it has; both 0 on a refusal.
///
/// ```
/// use reefmitten::raw;
///
/// let record = std::fs::read("../records/s1.bin").unwrap();
/// assert_eq!(raw::view(&record, 1), (0, 99, 3));
/// assert_eq!(raw::view(&record, 2), (4, 0, 0));
/// ```
#[must_use]
pub fn view(record: &[u8], processor: u8) -> (u16, usize, usize) {
    let (mut start, mut length) = (0, 0);
    // Sound: see the top of this file.
    let answer = unsafe {
        reefmitten_view(record.as_ptr(), record.len(), processor, &mut start, &mut length)
    };
    (answer, start, length)
}

/// Opens a reader: the answer, and how many bytes of the record it goes over: all of them, or none
/// on a refusal.
///
/// ```
/// use reefmitten::raw;
///
/// let record = std::fs::read("../records/s1.bin").unwrap();
/// assert_eq!(raw::open(&record), (0, 102));
/// assert_eq!(raw::open(&record[..101]), (2, 0));
/// ```
#[must_use]
pub fn open(record: &[u8]) -> (u16, usize) {
    let mut bytes = 0;
    // Sound: see the top of this file.
    let answer = unsafe { reefmitten_open(record.as_ptr(), record.len(), &mut bytes) };
    (answer, bytes)
}

/// The first entry of sections 2 to 9 that stands at `at` or behind: its section, place and
/// length; three zeros where there is none.
///
/// Called with the part of the record that [`open`] gave, beginning with `at` 0 and going on at
/// place plus length, it gives each entry once, in order. A view with its count is one entry.
///
/// ```
/// use reefmitten::raw;
///
/// let record = std::fs::read("../records/s1.bin").unwrap();
/// assert_eq!(raw::next(&record, 0), (2, 4, 12));
/// assert_eq!(raw::next(&record, 16), (2, 16, 12));
/// assert_eq!(raw::next(&record, 98), (0, 0, 0));
/// ```
#[must_use]
pub fn next(record: &[u8], at: usize) -> (u16, usize, usize) {
    let (mut start, mut length) = (0, 0);
    // Sound: see the top of this file.
    let section =
        unsafe { reefmitten_next(record.as_ptr(), record.len(), at, &mut start, &mut length) };
    (section, start, length)
}
