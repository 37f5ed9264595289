//! The kinds of flow (document 02, E1; document 003, section 3). All that
//! differs from one kind to another stands in the table here.

use std::fmt;

use crate::record::{field_mut, put, Record};

/// What a flow asks of the bank.
#[derive(Clone, Copy, Debug, Default, Eq, PartialEq)]
pub enum FlowKind {
    /// New payment requests. Also the kind meant where nothing has told one:
    /// a list's items before its first header.
    #[default]
    Requests,
    /// Recalls of requests already sent.
    Recalls,
}

/// First and last position of a field.
type Field = (usize, usize);

/// The trailer's total of negative amounts.
const NEGATIVE: Field = (53, 67);
/// The trailer's total of positive amounts.
const POSITIVE: Field = (68, 82);

/// One row of the table of kinds.
pub(crate) struct Row {
    /// 29-33 of every record 14.
    pub(crate) causale: &'static [u8; 5],
    /// 47 of every record 14.
    pub(crate) sign: u8,
    /// The trailer's field with the sum; the other one has zeros.
    total: Field,
    /// The kind byte of the header's item in a request list.
    pub(crate) letter: u8,
    /// The word in the text of an answer.
    word: &'static str,
}

impl FlowKind {
    /// All kinds.
    pub(crate) const ALL: [FlowKind; 2] = [FlowKind::Requests, FlowKind::Recalls];

    /// The table of kinds.
    #[inline(always)]
    pub(crate) const fn row(self) -> Row {
        match self {
            FlowKind::Requests => Row {
                causale: b"07000",
                sign: b'-',
                total: NEGATIVE,
                letter: b'H',
                word: "requests",
            },
            FlowKind::Recalls => Row {
                causale: b"07100",
                sign: b'+',
                total: POSITIVE,
                letter: b'Q',
                word: "recalls",
            },
        }
    }

    /// The kind with this causale, if there is one.
    #[inline]
    pub(crate) fn of_causale(causale: &[u8]) -> Option<FlowKind> {
        FlowKind::ALL
            .into_iter()
            .find(|kind| kind.row().causale == causale)
    }

    /// The kind whose header's item has this kind byte, if there is one.
    #[inline]
    pub(crate) fn of_letter(letter: u8) -> Option<FlowKind> {
        FlowKind::ALL
            .into_iter()
            .find(|kind| kind.row().letter == letter)
    }

    /// The kind that this one is not.
    pub(crate) fn other(self) -> FlowKind {
        match self {
            FlowKind::Requests => FlowKind::Recalls,
            FlowKind::Recalls => FlowKind::Requests,
        }
    }

    /// Puts causale and sign of this kind into a record 14.
    #[inline]
    pub(crate) fn put_in(self, opening: &mut Record) {
        put(opening, 29, self.row().causale);
        put(opening, 47, &[self.row().sign]);
    }

    /// The trailer's two totals by rising position, and the value due in each.
    pub(crate) fn totals(self, cents: u64) -> [(Field, u64); 2] {
        let due = |place| if place == self.row().total { cents } else { 0 };
        [NEGATIVE, POSITIVE].map(|place| (place, due(place)))
    }

    /// The trailer's field with the sum, to be written.
    pub(crate) fn total_mut(self, trailer: &mut Record) -> &mut [u8] {
        let (first, last) = self.row().total;
        field_mut(trailer, first, last)
    }
}

/// The kind as the text of an answer has it.
impl fmt::Display for FlowKind {
    fn fmt(&self, f: &mut fmt::Formatter<'_>) -> fmt::Result {
        f.write_str(self.row().word)
    }
}
