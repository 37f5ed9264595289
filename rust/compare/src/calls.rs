//! One call on both sides, and what is the same afterwards.

use std::hint::black_box;

use crate::entry::Entry;
use crate::lent::{Lent, Tonight};
use crate::sides::{reply, Side, Sides, Told};
use crate::tally::Tally;

/// What a call has returned, and all that was lent to it, afterwards.
#[derive(Clone, Debug, Eq, PartialEq)]
pub struct Outcome {
    pub status: u8,
    pub after: Lent,
}

impl Outcome {
    /// Puts this answer in the place of the one given.
    pub fn answer(&mut self, told: Told, length: usize) {
        (self.status, self.after.entries) = reply(told, length);
    }
}

/// What the outcome of the proved library is held against.
#[derive(Clone, Copy, Debug, Eq, PartialEq)]
pub enum Against {
    /// The outcome of the second program.
    Second,
    /// The bytes that the call may not write, as they were lent.
    Lent,
    /// What the ledger says.
    Ledger,
}

/// A call whose outcome is not the one due.
#[derive(Debug)]
pub struct Difference {
    pub entry: Entry,
    pub lent: Lent,
    pub proved: Outcome,
    pub against: Against,
    pub due: Outcome,
}

/// A result, or the first difference.
pub type Agreed<T> = Result<T, Box<Difference>>;

/// Runs a call on both sides, each with its own copy of what is lent, and
/// gives the outcome that both have.
pub fn agree(sides: &Sides, tally: &mut Tally, entry: Entry, lent: &Lent) -> Agreed<Outcome> {
    let proved = outcome(sides.proved, entry, lent);
    let second = outcome(sides.second, entry, lent);
    same(entry, lent, &proved, Against::Second, second)?;
    same(
        entry,
        lent,
        &proved,
        Against::Lent,
        kept(entry, lent, &proved),
    )?;
    tally.add(entry, &proved);
    Ok(proved)
}

/// The one comparison of outcomes.
pub fn same(
    entry: Entry,
    lent: &Lent,
    proved: &Outcome,
    against: Against,
    due: Outcome,
) -> Agreed<()> {
    if *proved == due {
        return Ok(());
    }
    Err(Box::new(Difference {
        entry,
        lent: lent.clone(),
        proved: proved.clone(),
        against,
        due,
    }))
}

/// Runs a call on one side.
fn outcome(side: Side, entry: Entry, lent: &Lent) -> Outcome {
    let mut after = lent.clone();
    let status = side(entry, &mut after.memory());
    // The compiler may not take a buffer lent to be read for unchanged: that
    // is to be seen.
    Outcome {
        status,
        after: black_box(after),
    }
}

/// The outcome with all that the call may not write as it was lent: what is
/// around the buffers, an input lent to be read only, the output beyond the
/// length told, and every buffer where the call is refused. The working memory
/// of an accepted call is zero.
fn kept(entry: Entry, lent: &Lent, outcome: &Outcome) -> Outcome {
    let after = &outcome.after;
    let length = usize::try_from(after.entries[3]).unwrap_or(usize::MAX);
    let (input, output) = match outcome.status {
        0 => (0, 0),
        _ if entry.amends() => (usize::MAX, 0),
        _ => (0, length),
    };
    let tonight = lent.tonight.as_ref().map(|tonight| Tonight {
        flow: tonight.flow.clone(),
        work: match outcome.status {
            0 => tonight.work.clone(),
            _ => tonight.work.zeroed(),
        },
    });
    Outcome {
        status: outcome.status,
        after: Lent {
            input: lent.input.with_front(&after.input, input),
            tonight,
            output: lent.output.with_front(&after.output, output),
            entries: after.entries,
        },
    }
}
