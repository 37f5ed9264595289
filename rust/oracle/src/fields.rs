//! The field rules: digits, dates and amounts, on slices of bytes alone.
//!
//! Nothing here knows of records or flows, and a refusal is its number alone
//! (document 01, "Questions and changes", last paragraph). The blank and
//! equality tests are helpers of the record rules.

/// Refusal number of a field that is not digits, or has the wrong length.
pub const NOT_DIGITS: u8 = 5;
/// Refusal number of six digits that are no calendar date.
pub const NO_DATE: u8 = 8;
/// Refusal number of an amount of thirteen zeros (document 02, E5).
pub const ZERO_AMOUNT: u8 = 25;

/// The longest digit field.
pub const MAX_DIGITS: usize = 15;
/// The length of a date, GGMMAA.
pub const DATE_LEN: usize = 6;
/// The length of an amount in cents.
pub const AMOUNT_LEN: usize = 13;
/// The least amount.
pub const MIN_AMOUNT: u64 = 1;
/// The largest amount, 13 nines.
pub const MAX_AMOUNT: u64 = 9_999_999_999_999;
/// The largest total, 15 nines.
pub const MAX_TOTAL: u64 = 999_999_999_999_999;

/// A calendar day of the years 2000 to 2099.
#[derive(Clone, Copy, Debug, Eq, PartialEq)]
pub struct Date {
    pub day: u8,
    pub month: u8,
    pub year: u16,
}

/// The value of one to fifteen digits, or 5.
#[inline]
pub fn digits(bytes: &[u8]) -> Result<u64, u8> {
    if bytes.is_empty() || bytes.len() > MAX_DIGITS {
        return Err(NOT_DIGITS);
    }
    let mut value = 0;
    for &byte in bytes {
        let digit = byte.wrapping_sub(b'0');
        if digit > 9 {
            return Err(NOT_DIGITS);
        }
        value = value * 10 + u64::from(digit);
    }
    Ok(value)
}

/// The value of an amount: thirteen digits, or 5; above zero, or 25.
#[inline]
pub fn amount(bytes: &[u8]) -> Result<u64, u8> {
    if bytes.len() != AMOUNT_LEN {
        return Err(NOT_DIGITS);
    }
    let cents = digits(bytes)?;
    if !is_amount(cents) {
        return Err(ZERO_AMOUNT);
    }
    Ok(cents)
}

/// Whether so many cents are an amount: above zero, and of at most thirteen
/// digits.
#[inline]
pub fn is_amount(cents: u64) -> bool {
    (MIN_AMOUNT..=MAX_AMOUNT).contains(&cents)
}

/// The day that six digits GGMMAA name, year 2000+AA. The wrong length or a
/// byte that is no digit is 5, digits that name no day are 8.
#[inline]
pub fn date(bytes: &[u8]) -> Result<Date, u8> {
    if bytes.len() != DATE_LEN {
        return Err(NOT_DIGITS);
    }
    let value = digits(bytes)?;
    let date = Date {
        day: (value / 10_000) as u8,
        month: (value / 100 % 100) as u8,
        year: 2000 + (value % 100) as u16,
    };
    if date.day == 0 || date.day > days_in(date.month, date.year) {
        return Err(NO_DATE);
    }
    Ok(date)
}

/// The number of days of a month, 0 if there is no such month.
fn days_in(month: u8, year: u16) -> u8 {
    match month {
        1 | 3 | 5 | 7 | 8 | 10 | 12 => 31,
        4 | 6 | 9 | 11 => 30,
        2 if is_leap(year) => 29,
        2 => 28,
        _ => 0,
    }
}

fn is_leap(year: u16) -> bool {
    year.is_multiple_of(4) && (!year.is_multiple_of(100) || year.is_multiple_of(400))
}

/// Fills `out` with the decimal digits of `value`, zeros in front. Where the
/// value needs more digits than there is room for, its low digits are kept.
#[inline]
pub fn write_digits(out: &mut [u8], mut value: u64) {
    for byte in out.iter_mut().rev() {
        *byte = b'0' + (value % 10) as u8;
        value /= 10;
    }
}

/// Whether every byte is a blank; true of no byte at all.
#[inline]
pub fn is_blank(bytes: &[u8]) -> bool {
    bytes.iter().all(|&byte| byte == b' ')
}

/// Whether two slices have the same length and the same bytes.
#[inline]
pub fn is_equal(left: &[u8], right: &[u8]) -> bool {
    left == right
}
