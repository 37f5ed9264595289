//! The entry points of the C interface.

use std::fmt;

use oracle::ledger::Call;
use oracle::FlowKind;

/// An entry point, with the numbers that a call of it names.
#[derive(Clone, Copy, Debug, Eq, PartialEq)]
pub enum Entry {
    Digits,
    Amount,
    Date,
    Read,
    Find { k: u64 },
    Write,
    List,
    Change { k: u64, cents: u64 },
    Withdraw { k: u64 },
    Compare,
    Line { n: u64 },
}

/// What the bytes of a buffer are to be.
#[derive(Clone, Copy, Debug, Eq, PartialEq)]
pub enum Form {
    Field,
    Flow,
    List,
    Account,
}

impl Entry {
    /// Every entry point once.
    pub const ALL: [Entry; 11] = [
        Entry::Digits,
        Entry::Amount,
        Entry::Date,
        Entry::Read,
        Entry::Find { k: 0 },
        Entry::Write,
        Entry::List,
        Entry::Change { k: 0, cents: 0 },
        Entry::Withdraw { k: 0 },
        Entry::Compare,
        Entry::Line { n: 0 },
    ];

    /// Its place among all.
    pub fn index(self) -> usize {
        match self {
            Entry::Digits => 0,
            Entry::Amount => 1,
            Entry::Date => 2,
            Entry::Read => 3,
            Entry::Find { .. } => 4,
            Entry::Write => 5,
            Entry::List => 6,
            Entry::Change { .. } => 7,
            Entry::Withdraw { .. } => 8,
            Entry::Compare => 9,
            Entry::Line { .. } => 10,
        }
    }

    /// Its name in C.
    pub fn name(self) -> &'static str {
        const NAMES: [&str; 11] = [
            "mav_digits",
            "mav_amount",
            "mav_date",
            "mav_read",
            "mav_find",
            "mav_write",
            "mav_list",
            "mav_change",
            "mav_withdraw",
            "mav_compare",
            "mav_compare_line",
        ];
        NAMES[self.index()]
    }

    /// What it is given.
    pub fn input(self) -> Form {
        match self {
            Entry::Digits | Entry::Amount | Entry::Date => Form::Field,
            Entry::Write => Form::List,
            _ => Form::Flow,
        }
    }

    /// What it fills an output with, if it has one.
    pub fn output(self) -> Option<Form> {
        match self {
            Entry::Write => Some(Form::Flow),
            Entry::List => Some(Form::List),
            Entry::Compare => Some(Form::Account),
            _ => None,
        }
    }

    /// Whether it may write to its input.
    pub fn amends(self) -> bool {
        matches!(self, Entry::Change { .. } | Entry::Withdraw { .. })
    }

    /// Whether it is asked of two flows.
    pub fn of_two_flows(self) -> bool {
        matches!(self, Entry::Compare | Entry::Line { .. })
    }

    /// Whether it tells the kind of flow where it is accepted.
    pub fn tells_kind(self) -> bool {
        match self {
            Entry::Digits | Entry::Amount | Entry::Date | Entry::Find { .. } => false,
            Entry::Read | Entry::Write | Entry::List => true,
            Entry::Change { .. } | Entry::Withdraw { .. } => true,
            Entry::Compare | Entry::Line { .. } => false,
        }
    }

    /// What the numbers of an accepted call are.
    pub fn accepted(self) -> &'static [&'static str] {
        match self {
            Entry::Digits | Entry::Amount => &["value"],
            Entry::Date => &[],
            Entry::Find { .. } => &["first record", "records", "cents"],
            Entry::Compare => &["kept", "dropped", "added", "length"],
            Entry::Line { .. } => &["letter", "record"],
            _ => &["dispositions", "cents", "records"],
        }
    }

    /// Whether it can be answered so in the memory lent here.
    pub fn gives(self, answered: Answered) -> bool {
        match answered {
            Answered::Accepted(_) => self.tells_kind() || self.of_two_flows(),
            Answered::Refused(number) => self.refuses_by(number),
            Answered::RefusedNew(number) => self.of_two_flows() && of_reading(number),
        }
    }

    /// Writing gives 1 only for ten million items, which are not tried. It
    /// numbers the records, gives them their kind and writes the trailer
    /// itself, so that 4, 9, 12 to 14 and 22 cannot come.
    fn refuses_by(self, number: u8) -> bool {
        match self {
            Entry::Digits => number == 5,
            Entry::Amount => matches!(number, 5 | 25),
            Entry::Date => matches!(number, 5 | 8),
            Entry::Read => of_reading(number),
            Entry::Find { .. } => of_reading(number) || number == 15,
            Entry::Write => matches!(number, 2 | 3 | 5..=8 | 10 | 11 | 17 | 20 | 21 | 25),
            Entry::List => of_reading(number) || number == 21,
            Entry::Change { .. } => of_reading(number) || matches!(number, 15..=17),
            Entry::Withdraw { .. } => of_reading(number) || matches!(number, 15 | 18),
            Entry::Compare => of_reading(number) || matches!(number, 21 | 27 | 28 | 34),
            Entry::Line { .. } => of_reading(number) || matches!(number, 15 | 27 | 28 | 34),
        }
    }
}

/// Whether reading a flow can refuse it by this number.
pub fn of_reading(number: u8) -> bool {
    matches!(number, 1..=14 | 22 | 25)
}

/// How a call is answered, as far as calls are counted by it.
#[derive(Clone, Copy, Debug, Eq, PartialEq)]
pub enum Answered {
    /// Accepted, with this kind of flow.
    Accepted(FlowKind),
    /// Refused by this number.
    Refused(u8),
    /// Refused by this number for tonight's flow, after last night's was
    /// found right.
    RefusedNew(u8),
}

/// The title of its row in the table.
impl fmt::Display for Answered {
    fn fmt(&self, f: &mut fmt::Formatter<'_>) -> fmt::Result {
        match self {
            Answered::Accepted(kind) => write!(f, "{kind}"),
            Answered::Refused(number) => write!(f, "refused {number}"),
            Answered::RefusedNew(number) => write!(f, "new flow {number}"),
        }
    }
}

impl From<Call> for Entry {
    fn from(call: Call) -> Entry {
        match call {
            Call::Change { k, cents } => Entry::Change { k, cents },
            Call::Withdraw { k } => Entry::Withdraw { k },
        }
    }
}
