//! The lengths and the largest numbers of documents 01 and 02.

/// The length of a record in bytes.
pub const RECORD_LENGTH: usize = 120;

/// The most records that a flow may have, header and trailer counted: seven nines.
pub const MAX_RECORDS: u64 = 9_999_999;

/// The length of the longest flow, [`MAX_RECORDS`] of [`RECORD_LENGTH`] bytes. A longer one is refused
/// by [`Reason::Length`](crate::Reason::Length).
pub const MAX_FLOW_LENGTH: usize = 1_199_999_880;

/// The largest amount of a disposition in cents: thirteen nines.
pub const MAX_AMOUNT: u64 = 9_999_999_999_999;

/// The largest total of a flow in cents: fifteen nines.
pub const MAX_TOTAL: u64 = 999_999_999_999_999;

/// The length of the longest item of a request list: its kind, and a body of 110 bytes.
pub const MAX_ITEM_LENGTH: usize = 111;

/// The most digits that [`digits`](crate::digits) takes.
pub const MAX_DIGITS: usize = 15;

/// The length of an amount in digits.
pub const AMOUNT_LENGTH: usize = 13;

/// The length of a date in digits: day, month and year, two of each.
pub const DATE_LENGTH: usize = 6;

/// The most dispositions of a flow that can be [compared](crate::compare) with another.
pub const MAX_COMPARED: u64 = 256;

/// The least working memory of a comparison, in numbers of 16 bits: 257 times 257.
pub const MIN_WORK: usize = 66_049;

/// The length of the longest account of a comparison: [`MAX_COMPARED`] lines for each side.
pub const MAX_ACCOUNT_LENGTH: usize = 512;
