//! How many calls were compared, and how they were answered.

use std::fmt;

use oracle::reader::read;
use oracle::tally::NUMBERS;
use oracle::Answer;

use crate::calls::Outcome;
use crate::entry::{of_reading, Answered, Entry};
use crate::lent::Tonight;
use crate::sides::{kind_entry, KINDS};

/// The numbers that can come of two flows alone (document 02, E7).
const OF_TWO_FLOWS: [u8; 3] = [27, 28, 34];

/// The answers to one entry point.
#[derive(Clone, Copy, Debug, Eq, PartialEq)]
struct Counts {
    /// By entry 4, the kind of flow; by that of the flows lent where the call
    /// tells none.
    accepted: [u64; 3],
    /// By entry 0, the number.
    refused: [u64; 40],
    /// Likewise, where reading refuses the second of two flows.
    refused_new: [u64; 40],
}

impl Default for Counts {
    fn default() -> Counts {
        Counts {
            accepted: [0; 3],
            refused: [0; 40],
            refused_new: [0; 40],
        }
    }
}

impl Counts {
    fn accepted(&self) -> u64 {
        self.accepted.iter().sum()
    }

    fn compared(&self) -> u64 {
        let refused = self.refused.iter().chain(&self.refused_new);
        self.accepted() + refused.sum::<u64>()
    }

    fn of(&self, answered: Answered) -> u64 {
        match answered {
            Answered::Accepted(kind) => self.accepted[kind_entry(kind) as usize],
            Answered::Refused(number) => self.refused[usize::from(number)],
            Answered::RefusedNew(number) => self.refused_new[usize::from(number)],
        }
    }
}

/// The answers to each entry point.
#[derive(Clone, Debug, Default, Eq, PartialEq)]
pub struct Tally([Counts; 11]);

impl Tally {
    /// Counts a call on which both sides agree. A kind or a number far above
    /// those of the documents is counted under 0.
    pub fn add(&mut self, entry: Entry, outcome: &Outcome) {
        let counts = &mut self.0[entry.index()];
        let [number, _, _, _, kind, ..] = outcome.after.entries;
        let (counts, index) = match (outcome.status, &outcome.after.tonight) {
            (1, None) => (&mut counts.accepted[..], kind),
            (1, Some(tonight)) => (&mut counts.accepted[..], kind_of(tonight)),
            (_, Some(_)) if of_new_flow(outcome) => (&mut counts.refused_new[..], number),
            _ => (&mut counts.refused[..], number),
        };
        let index = usize::try_from(index).unwrap_or(0);
        let known = index < counts.len();
        counts[if known { index } else { 0 }] += 1;
    }

    /// The number of calls compared.
    pub fn cases(&self) -> u64 {
        self.0.iter().map(Counts::compared).sum()
    }

    /// The kinds and the numbers that an entry point can give and has not
    /// given.
    pub fn missed(&self) -> Vec<(Entry, Answered)> {
        let mut missed = Vec::new();
        for (&entry, counts) in Entry::ALL.iter().zip(&self.0) {
            let never = |answered: &Answered| entry.gives(*answered) && counts.of(*answered) == 0;
            let answers = answers().filter(never);
            missed.extend(answers.map(|answered| (entry, answered)));
        }
        missed
    }
}

/// The kind of two flows that could be compared, as an answer would tell it.
fn kind_of(tonight: &Tonight) -> u64 {
    match read(tonight.flow.lent()) {
        Answer::Accepted { kind, .. } => kind_entry(kind),
        Answer::Refused { .. } => 0,
    }
}

/// Whether a call on two flows is refused for the second of them.
fn of_new_flow(outcome: &Outcome) -> bool {
    let number = u8::try_from(outcome.after.entries[0]).unwrap_or(0);
    let old = outcome.after.input.lent();
    of_reading(number) && matches!(read(old), Answer::Accepted { .. })
}

/// All kinds and numbers.
fn answers() -> impl Iterator<Item = Answered> {
    let accepted = KINDS.map(Answered::Accepted).into_iter();
    let numbers = NUMBERS.into_iter().chain(OF_TWO_FLOWS);
    let refused = numbers.clone().map(Answered::Refused);
    let of_new = numbers.filter(|&number| of_reading(number));
    accepted
        .chain(refused)
        .chain(of_new.map(Answered::RefusedNew))
}

/// A column for each entry point; `-` where it can give no such answer.
impl fmt::Display for Tally {
    fn fmt(&self, f: &mut fmt::Formatter<'_>) -> fmt::Result {
        let mut row = |title: &str, cell: &dyn Fn(Entry, &Counts) -> String| {
            write!(f, "{title:<11}")?;
            for (entry, counts) in Entry::ALL.iter().zip(&self.0) {
                let width = entry.name().len().max(12);
                write!(f, " {:>width$}", cell(*entry, counts))?;
            }
            writeln!(f)
        };
        row("", &|entry, _| entry.name().to_string())?;
        row("compared", &|_, counts| counts.compared().to_string())?;
        row("accepted", &|_, counts| counts.accepted().to_string())?;
        for answered in answers() {
            row(&answered.to_string(), &|entry, counts| match (
                entry.gives(answered),
                counts.of(answered),
            ) {
                (false, 0) => String::from("-"),
                (_, count) => count.to_string(),
            })?;
        }
        Ok(())
    }
}
