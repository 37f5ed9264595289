//! A run: round after round, until enough cases agree.

use crate::cases::Case;
use crate::minimal::smallest;
use crate::report::report;
use crate::rounds::{pair, round};
use crate::sides::Sides;
use crate::tally::Tally;

/// Compares at least `count` cases of a seed, and finishes the list of calls
/// at hand. Gives what was compared, or the text of the first case that
/// differs.
pub fn run(sides: &Sides, seed: u64, count: u64) -> Result<Tally, String> {
    let mut tally = Tally::default();
    for index in 0.. {
        for case in round(seed, index) {
            if tally.cases() >= count {
                return Ok(tally);
            }
            if let Err(text) = check(sides, &mut tally, &case) {
                let number = tally.cases() + 1;
                return Err(format!(
                    "{text}case {number} of seed {seed}, in round {index}; \
                     to repeat it: compare {seed} {number}\n"
                ));
            }
        }
    }
    Ok(tally)
}

/// Compares only the calls on two flows, of so many pairs of a seed with at
/// most so many requests a side. Gives the same.
pub fn run_evenings(sides: &Sides, seed: u64, pairs: u64, most: usize) -> Result<Tally, String> {
    let mut tally = Tally::default();
    for index in 0..pairs {
        if let Err(text) = check(sides, &mut tally, &pair(seed, index, most)) {
            let number = index + 1;
            return Err(format!(
                "{text}pair {number} of seed {seed}; \
                 to repeat it: compare evenings {seed} {number} {most}\n"
            ));
        }
    }
    Ok(tally)
}

/// Compares a case, or gives the text of a small one that differs too.
fn check(sides: &Sides, tally: &mut Tally, case: &Case) -> Result<(), String> {
    case.check(sides, tally).map_err(|found| {
        let case = smallest(sides, case);
        let small = case.check(sides, &mut Tally::default()).err();
        report(&case, &small.unwrap_or(found))
    })
}
