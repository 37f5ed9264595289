//! The record of 120 bytes and its positions, which count from 1.

/// The length of a record.
pub const RECORD_LEN: usize = 120;
/// The most records a flow can have: the trailer counts them in seven digits.
pub const MAX_RECORDS: u64 = 9_999_999;

/// One record of a flow.
pub type Record = [u8; RECORD_LEN];

/// A record of 120 blanks.
pub const BLANK_RECORD: Record = [b' '; RECORD_LEN];

/// The bytes at positions `first` to `last`, which must be those of a record.
#[inline(always)]
pub fn field(record: &Record, first: usize, last: usize) -> &[u8] {
    &record[first - 1..last]
}

/// The bytes at positions `first` to `last`, to be written.
#[inline(always)]
pub fn field_mut(record: &mut Record, first: usize, last: usize) -> &mut [u8] {
    &mut record[first - 1..last]
}

/// Puts bytes into a record from position `first` on. The positions must be
/// those of a record.
#[inline(always)]
pub fn put(record: &mut Record, first: usize, bytes: &[u8]) {
    field_mut(record, first, first - 1 + bytes.len()).copy_from_slice(bytes);
}

/// The record type, at 2-3.
#[inline(always)]
pub fn record_type(record: &Record) -> [u8; 2] {
    [record[1], record[2]]
}
