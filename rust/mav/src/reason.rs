//! The refusal numbers of documents 01 and 02, each under a name.

use std::fmt;

/// Why a call is refused: one variant for each number of document 01's table, "Numbers a clerk may see", and
/// for each that a request of document 02 adds.
///
/// Number 19 is not used. [`Display`](fmt::Display) gives one sentence for a clerk, which begins in small
/// letters and has no period, so that it can follow a colon.
///
/// Later versions add numbers, so a `match` on it needs an arm for those that it does not name; the number
/// and the sentence are there for every one.
///
/// ```
/// use mav::Reason;
///
/// assert_eq!(Reason::DispositionNumber.number(), 9);
/// assert_eq!(
///     Reason::OnlyDisposition.to_string(),
///     "the only disposition of a flow cannot be withdrawn",
/// );
///
/// let advice = |reason: Reason| match reason {
///     Reason::Ended => "have it sent again".to_string(),
///     other => format!("number {}: {other}", other.number()),
/// };
/// assert_eq!(advice(Reason::Ended), "have it sent again");
/// assert_eq!(advice(Reason::Total), "number 13: this total of the trailer is wrong");
/// ```
#[derive(Clone, Copy, Debug, Eq, Hash, Ord, PartialEq, PartialOrd)]
#[non_exhaustive]
#[repr(u8)]
pub enum Reason {
    /// 1: the flow's length is 0, no multiple of 120, or above
    /// [`MAX_FLOW_LENGTH`](crate::MAX_FLOW_LENGTH).
    Length = 1,
    /// 2: a byte outside 32 to 126.
    Byte = 2,
    /// 3: the record's type is not permitted at its place.
    RecordType = 3,
    /// 4: the flow ended where a record was due.
    Ended = 4,
    /// 5: a field is not digits.
    NotDigits = 5,
    /// 6: a value is not among those permitted.
    NotPermitted = 6,
    /// 7: an obligatory field is all blank.
    Blank = 7,
    /// 8: six digits are no date of the calendar.
    NotADate = 8,
    /// 9: a disposition number is wrong.
    DispositionNumber = 9,
    /// 10: a field differs from the header.
    DiffersFromHeader = 10,
    /// 11: a company code differs from that of the first record 14; blanks are a code like any other.
    CompanyCode = 11,
    /// 12: the trailer's count of dispositions is wrong.
    DispositionCount = 12,
    /// 13: a total of the trailer is wrong.
    Total = 13,
    /// 14: the trailer's count of records is wrong.
    RecordCount = 14,
    /// 15: there is no disposition of that number, or no line of an account.
    NoSuchDisposition = 15,
    /// 16: the new amount is 0, or above [`MAX_AMOUNT`](crate::MAX_AMOUNT).
    NotAnAmount = 16,
    /// 17: the total would be above [`MAX_TOTAL`](crate::MAX_TOTAL).
    TotalTooLarge = 17,
    /// 18: the only disposition is to be withdrawn.
    OnlyDisposition = 18,
    /// 20: an item of the list has an unknown kind, or is cut short. Its number from 1 stands in the
    /// place of the record.
    Item = 20,
    /// 21: the output is shorter than needed.
    Room = 21,
    /// 22: a disposition is of another [kind](crate::FlowKind) than the first one of its flow.
    OtherKind = 22,
    /// 25: an amount is zero.
    ZeroAmount = 25,
    /// 27: one of the two flows to be compared has more than [`MAX_COMPARED`](crate::MAX_COMPARED)
    /// dispositions.
    TooManyRequests = 27,
    /// 28: the two flows to be compared are of different [kinds](crate::FlowKind).
    KindsDiffer = 28,
    /// 34: the working memory of a comparison has fewer than [`MIN_WORK`](crate::MIN_WORK) numbers.
    WorkingMemory = 34,
}

impl Reason {
    /// Every reason, by rising number.
    ///
    /// ```
    /// use mav::Reason;
    ///
    /// assert_eq!(Reason::ALL.len(), 25);
    /// assert!(Reason::ALL.iter().all(|reason| reason.number() != 19));
    /// ```
    pub const ALL: &'static [Reason] = &[
        Reason::Length,
        Reason::Byte,
        Reason::RecordType,
        Reason::Ended,
        Reason::NotDigits,
        Reason::NotPermitted,
        Reason::Blank,
        Reason::NotADate,
        Reason::DispositionNumber,
        Reason::DiffersFromHeader,
        Reason::CompanyCode,
        Reason::DispositionCount,
        Reason::Total,
        Reason::RecordCount,
        Reason::NoSuchDisposition,
        Reason::NotAnAmount,
        Reason::TotalTooLarge,
        Reason::OnlyDisposition,
        Reason::Item,
        Reason::Room,
        Reason::OtherKind,
        Reason::ZeroAmount,
        Reason::TooManyRequests,
        Reason::KindsDiffer,
        Reason::WorkingMemory,
    ];

    /// The number in the documents.
    ///
    /// ```
    /// assert_eq!(mav::Reason::Room.number(), 21);
    /// ```
    pub const fn number(self) -> u64 {
        self as u64
    }

    /// The reason with this number, or nothing where the documents have no such number.
    ///
    /// ```
    /// use mav::Reason;
    ///
    /// assert_eq!(Reason::from_number(4), Some(Reason::Ended));
    /// assert_eq!(Reason::from_number(22), Some(Reason::OtherKind));
    /// assert_eq!(Reason::from_number(19), None);
    /// assert_eq!(Reason::from_number(0), None);
    /// ```
    pub fn from_number(number: u64) -> Option<Reason> {
        let mut reasons = Reason::ALL.iter().copied();
        reasons.find(|reason| reason.number() == number)
    }

    /// The sentence for a clerk.
    const fn sentence(self) -> &'static str {
        match self {
            Reason::Length => {
                "the flow is empty, is not whole records of 120 bytes, or is too long"
            }
            Reason::Byte => "this character is not a plain letter, digit, sign or blank",
            Reason::RecordType => "a record of this type may not stand here",
            Reason::Ended => "the flow ends where one more record is due",
            Reason::NotDigits => "this field holds something other than digits",
            Reason::NotPermitted => "the value of this field is not one of those permitted",
            Reason::Blank => "this field must be filled in and is blank",
            Reason::NotADate => "the digits of this field are not a date of the calendar",
            Reason::DispositionNumber => "the disposition number is not the one due here",
            Reason::DiffersFromHeader => "this field differs from the header",
            Reason::CompanyCode => "the company code differs from that of the first disposition",
            Reason::DispositionCount => "the trailer's count of dispositions is wrong",
            Reason::Total => "this total of the trailer is wrong",
            Reason::RecordCount => "the trailer's count of records is wrong",
            Reason::NoSuchDisposition => "the flow has no disposition of that number",
            Reason::NotAnAmount => {
                "the new amount must be above zero and have at most 13 digits in cents"
            }
            Reason::TotalTooLarge => "the total would have more than 15 digits in cents",
            Reason::OnlyDisposition => "the only disposition of a flow cannot be withdrawn",
            Reason::Item => "the list's item of that number is of an unknown kind or is cut short",
            Reason::Room => "there is not enough room for what is to be written",
            Reason::OtherKind => {
                "a request and a recall may not share a flow, and the first one was of the other kind"
            }
            Reason::ZeroAmount => "this amount is zero, and every amount must be above zero",
            Reason::TooManyRequests => "flows of more than 256 dispositions cannot be compared",
            Reason::KindsDiffer => "a flow of requests and one of recalls cannot be compared",
            Reason::WorkingMemory => "there is not enough working memory for a comparison",
        }
    }
}

impl fmt::Display for Reason {
    fn fmt(&self, f: &mut fmt::Formatter<'_>) -> fmt::Result {
        f.pad(self.sentence())
    }
}
