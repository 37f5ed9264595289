//! What can be compared: one call, a list of calls on one flow, or calls on
//! two flows.

use oracle::evenings::account;
use oracle::ledger::Call;
use oracle::list::{items, layout_of_record};
use oracle::record::{record_type, RECORD_LEN};
use oracle::rng::Rng;

use crate::calls::{agree, Agreed};
use crate::entry::{Entry, Form};
use crate::ledger;
use crate::lent::{Buffer, Lent, Tonight};
use crate::sides::Sides;
use crate::tally::Tally;

/// A case, with all that makes it come again.
#[derive(Clone, Debug, Eq, PartialEq)]
pub enum Case {
    /// One call.
    One {
        entry: Entry,
        input: Vec<u8>,
        /// The room of the output beyond what is needed; below zero there is
        /// too little. So it stays telling while the input shrinks.
        slack: isize,
        marks: u64,
    },
    /// A list of calls on an accepted flow, held against the ledger.
    Calls {
        flow: Vec<u8>,
        calls: Vec<Call>,
        marks: u64,
    },
    /// Calls on last night's and tonight's flow, each lent the same memory.
    Evenings {
        old: Vec<u8>,
        new: Vec<u8>,
        entries: Vec<Entry>,
        /// The length of the working memory.
        work: usize,
        /// The room of the account beyond what is needed.
        slack: isize,
        marks: u64,
    },
}

impl Case {
    /// Compares every call of the case.
    pub fn check(&self, sides: &Sides, tally: &mut Tally) -> Agreed<()> {
        match self {
            Case::One {
                entry,
                input,
                slack,
                marks,
            } => {
                let mut rng = Rng::new(*marks);
                let room = needed(*entry, input).saturating_add_signed(*slack);
                let input = Buffer::new(input, &mut rng);
                let lent = Lent::new(input, room, &mut rng);
                agree(sides, tally, *entry, &lent).map(drop)
            }
            Case::Calls { flow, calls, marks } => {
                ledger::check(sides, tally, flow, calls, Rng::new(*marks))
            }
            Case::Evenings {
                old,
                new,
                entries,
                work,
                slack,
                marks,
            } => {
                let mut rng = Rng::new(*marks);
                let room = lines(old, new).saturating_add_signed(*slack);
                let input = Buffer::new(old, &mut rng);
                let tonight = Tonight::new(new, *work, &mut rng);
                let mut lent = Lent::new(input, room, &mut rng);
                lent.tonight = Some(tonight);
                let mut calls = entries.iter();
                calls.try_for_each(|&entry| agree(sides, tally, entry, &lent).map(drop))
            }
        }
    }

    /// The bytes that the case starts with: one field, list or flow, or two
    /// flows.
    pub fn inputs(&self) -> Vec<&[u8]> {
        match self {
            Case::One { input, .. } => vec![input],
            Case::Calls { flow, .. } => vec![flow],
            Case::Evenings { old, new, .. } => vec![old, new],
        }
    }

    /// What these bytes are.
    pub fn form(&self) -> Form {
        match self {
            Case::One { entry, .. } => entry.input(),
            Case::Calls { .. } | Case::Evenings { .. } => Form::Flow,
        }
    }

    /// The same case with other bytes in a place of its inputs.
    pub fn with(&self, place: usize, bytes: &[u8]) -> Case {
        let mut case = self.clone();
        let input = match &mut case {
            Case::One { input, .. } => input,
            Case::Calls { flow, .. } => flow,
            Case::Evenings { old, .. } if place == 0 => old,
            Case::Evenings { new, .. } => new,
        };
        *input = bytes.to_vec();
        case
    }
}

/// The room that a call needs in its output, whatever the contents of its
/// input.
fn needed(entry: Entry, input: &[u8]) -> usize {
    match entry.output() {
        Some(Form::Flow) => (items(input).count() + 1) * RECORD_LEN,
        Some(Form::List) => {
            let (records, _) = input.as_chunks::<RECORD_LEN>();
            let layouts = records.iter().filter_map(layout_of_record);
            layouts.map(|layout| 1 + layout.body_len()).sum()
        }
        _ => 0,
    }
}

/// The lines of an account: of two flows that cannot be compared, as many as
/// they have dispositions.
fn lines(old: &[u8], new: &[u8]) -> usize {
    match account(old, new) {
        Ok(account) => account.len(),
        Err(_) => (openings(old) + openings(new)) as usize,
    }
}

/// The number of records 14, each of which opens a disposition.
pub fn openings(flow: &[u8]) -> u64 {
    let (records, _) = flow.as_chunks::<RECORD_LEN>();
    let openings = records.iter().filter(|r| record_type(r) == *b"14");
    openings.count() as u64
}
