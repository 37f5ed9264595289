//! Answers and refusals (document 01, "Numbers a clerk may see").

use std::fmt;

use crate::kind::FlowKind;

/// The refusal numbers of document 01's table and of document 02, E1, E4, E5
/// and E7. Number 19 is not used.
pub mod number {
    pub const LENGTH: u8 = 1;
    pub const BYTE: u8 = 2;
    pub const TYPE: u8 = 3;
    pub const ENDED: u8 = 4;
    pub const NOT_DIGITS: u8 = crate::fields::NOT_DIGITS;
    pub const NOT_PERMITTED: u8 = 6;
    pub const BLANK: u8 = 7;
    pub const NO_DATE: u8 = crate::fields::NO_DATE;
    pub const DISPOSITION: u8 = 9;
    pub const HEADER: u8 = 10;
    pub const COMPANY: u8 = 11;
    pub const DISPOSITION_COUNT: u8 = 12;
    pub const TOTAL: u8 = 13;
    pub const RECORD_COUNT: u8 = 14;
    pub const NO_SUCH_DISPOSITION: u8 = 15;
    pub const NOT_AN_AMOUNT: u8 = 16;
    pub const TOTAL_LIMIT: u8 = 17;
    pub const ONLY_DISPOSITION: u8 = 18;
    pub const ITEM: u8 = 20;
    pub const OUTPUT: u8 = 21;
    pub const OTHER_KIND: u8 = 22;
    pub const ZERO_AMOUNT: u8 = crate::fields::ZERO_AMOUNT;
    pub const REQUESTS_LIMIT: u8 = 27;
    pub const KINDS_DIFFER: u8 = 28;
    pub const WORKING_MEMORY: u8 = 34;
}

/// The answer of every call on a flow or a request list.
#[derive(Clone, Copy, Debug, Eq, PartialEq)]
pub enum Answer {
    Accepted {
        dispositions: u64,
        cents: u64,
        records: u64,
        kind: FlowKind,
    },
    Refused {
        number: u8,
        record: u64,
        position: u8,
    },
}

/// The three numbers of an accepted flow, and its kind.
#[derive(Clone, Copy, Debug, Eq, PartialEq)]
pub struct Accepted {
    pub dispositions: u64,
    pub cents: u64,
    pub records: u64,
    pub kind: FlowKind,
}

/// A refusal: its number, the record from 1, the field's first position.
#[derive(Clone, Copy, Debug, Eq, PartialEq)]
pub struct Refusal {
    pub number: u8,
    pub record: u64,
    pub position: u8,
}

impl Refusal {
    /// A refusal of the call as a whole, at record 0, position 0.
    pub(crate) fn of_call(number: u8) -> Refusal {
        Refusal {
            number,
            record: 0,
            position: 0,
        }
    }
}

impl From<Accepted> for Answer {
    fn from(accepted: Accepted) -> Answer {
        Answer::Accepted {
            dispositions: accepted.dispositions,
            cents: accepted.cents,
            records: accepted.records,
            kind: accepted.kind,
        }
    }
}

impl From<Refusal> for Answer {
    fn from(refusal: Refusal) -> Answer {
        Answer::Refused {
            number: refusal.number,
            record: refusal.record,
            position: refusal.position,
        }
    }
}

impl<T: Into<Answer>> From<Result<T, Refusal>> for Answer {
    fn from(result: Result<T, Refusal>) -> Answer {
        match result {
            Ok(accepted) => accepted.into(),
            Err(refusal) => refusal.into(),
        }
    }
}

/// The line of the small program (document 01, "The small program"; document
/// 02, E1).
impl fmt::Display for Answer {
    fn fmt(&self, f: &mut fmt::Formatter<'_>) -> fmt::Result {
        match *self {
            Answer::Accepted {
                dispositions,
                cents,
                records,
                kind,
            } => write!(
                f,
                "accepted dispositions {dispositions} cents {cents} records {records} kind {kind}"
            ),
            Answer::Refused {
                number,
                record,
                position,
            } => write!(f, "refused {number} record {record} position {position}"),
        }
    }
}
