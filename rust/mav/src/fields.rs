//! The field rules: digits, amounts and dates, on bytes alone and without any flow.

use std::error::Error;
use std::fmt;

use crate::answer::{ask, foreign};
use crate::raw;
use crate::reason::Reason;

/// Why a field is refused. A field rule's refusal is its number alone, 5, 8 or 25. Later versions add numbers.
///
/// ```
/// use mav::{FieldRefusal, Reason};
///
/// assert_eq!(FieldRefusal::NotDigits.number(), 5);
/// assert_eq!(FieldRefusal::NotADate.reason(), Reason::NotADate);
/// ```
#[derive(Clone, Copy, Debug, Eq, Hash, PartialEq)]
#[non_exhaustive]
pub enum FieldRefusal {
    /// 5: the field is not digits, or not of the length due.
    NotDigits,
    /// 8: six digits are no date of the calendar. Only [`date`] gives it.
    NotADate,
    /// 25: thirteen digits are zero, and an amount is above it. Only [`amount`] gives it.
    ZeroAmount,
}

impl FieldRefusal {
    /// The number in the documents.
    ///
    /// ```
    /// assert_eq!(mav::FieldRefusal::NotADate.number(), 8);
    /// ```
    pub const fn number(self) -> u64 {
        self.reason().number()
    }

    /// The reason with the same number.
    ///
    /// ```
    /// assert_eq!(mav::FieldRefusal::NotDigits.reason(), mav::Reason::NotDigits);
    /// ```
    pub const fn reason(self) -> Reason {
        match self {
            FieldRefusal::NotDigits => Reason::NotDigits,
            FieldRefusal::NotADate => Reason::NotADate,
            FieldRefusal::ZeroAmount => Reason::ZeroAmount,
        }
    }
}

impl From<FieldRefusal> for Reason {
    fn from(refusal: FieldRefusal) -> Reason {
        refusal.reason()
    }
}

impl fmt::Display for FieldRefusal {
    fn fmt(&self, f: &mut fmt::Formatter<'_>) -> fmt::Result {
        let number = self.number();
        let sentence = match self {
            FieldRefusal::NotDigits => "the field is not digits, or is not of the length due",
            FieldRefusal::NotADate => "the digits of the field are not a date of the calendar",
            FieldRefusal::ZeroAmount => "the amount is zero, and every amount must be above zero",
        };
        write!(f, "refused {number}: {sentence}")
    }
}

impl Error for FieldRefusal {}

/// The number that a field of 1 to 15 digits holds.
///
/// Refused by [`FieldRefusal::NotDigits`] where a byte is no digit, and where the field has no byte or
/// more than [`MAX_DIGITS`](crate::MAX_DIGITS).
///
/// ```
/// use mav::FieldRefusal;
///
/// assert_eq!(mav::digits(b"0000016"), Ok(16));
/// assert_eq!(mav::digits(b"16 "), Err(FieldRefusal::NotDigits));
/// assert_eq!(mav::digits(b""), Err(FieldRefusal::NotDigits));
/// ```
pub fn digits(field: &[u8]) -> Result<u64, FieldRefusal> {
    ask_field(|answer| raw::digits(field, answer))
}

/// The cents that an amount of 13 digits holds, which is above zero.
///
/// Refused by [`FieldRefusal::NotDigits`] where a byte is no digit or the length is another, then by
/// [`FieldRefusal::ZeroAmount`].
///
/// ```
/// use mav::FieldRefusal;
///
/// assert_eq!(mav::amount(b"0000000045000"), Ok(45_000));
/// assert_eq!(mav::amount(b"45000"), Err(FieldRefusal::NotDigits));
/// assert_eq!(mav::amount(b"0000000000000"), Err(FieldRefusal::ZeroAmount));
/// assert_eq!(mav::amount(b"0000000000001"), Ok(1));
/// ```
pub fn amount(field: &[u8]) -> Result<u64, FieldRefusal> {
    ask_field(|answer| raw::amount(field, answer))
}

/// Whether six digits, day, month and year, are a date of the years 2000 to 2099.
///
/// Refused by [`FieldRefusal::NotDigits`] where a byte is no digit or the length is another, then by
/// [`FieldRefusal::NotADate`].
///
/// ```
/// use mav::FieldRefusal;
///
/// // Example 7 of document 01: 2028 has a 29 February, 2027 has none.
/// assert_eq!(mav::date(b"290228"), Ok(()));
/// assert_eq!(mav::date(b"290227"), Err(FieldRefusal::NotADate));
/// assert_eq!(mav::date(b"      "), Err(FieldRefusal::NotDigits));
/// ```
pub fn date(field: &[u8]) -> Result<(), FieldRefusal> {
    ask_field(|answer| raw::date(field, answer)).map(|_| ())
}

/// The first entry of an accepted answer, or the field's refusal.
fn ask_field(call: impl FnOnce(&mut raw::Entries) -> u8) -> Result<u64, FieldRefusal> {
    match ask(call) {
        Ok(entries) => Ok(entries[0]),
        Err((Reason::NotDigits, ..)) => Err(FieldRefusal::NotDigits),
        Err((Reason::NotADate, ..)) => Err(FieldRefusal::NotADate),
        Err((Reason::ZeroAmount, ..)) => Err(FieldRefusal::ZeroAmount),
        // `Demand1` gives the field rules 5, 8 and 25 alone.
        Err((reason, ..)) => foreign("refusal number of a field", reason.number()),
    }
}
