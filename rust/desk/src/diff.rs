//! What differs between two evenings' flows: both are named, what became of the requests is shown, and then
//! both totals. The two files are only read, and what is kept, dropped and added is the library's account.

use std::cmp::Ordering;
use std::io::Write;
use std::path::PathBuf;

use mav::{Accepted, Letter, Reason, Refusal, MAX_ACCOUNT_LENGTH, MIN_WORK};

use crate::account::Account;
use crate::euro::{grouped, shown as euro};
use crate::evening::Evening;
use crate::failure::{Failure, Outcome};
use crate::input::read;
use crate::kind::{counted, one};
use crate::name::shown;
use crate::refusal;
use crate::show::heading;

/// A comparison as it is asked for.
pub struct Diff {
    pub old: PathBuf,
    pub new: PathBuf,
    /// Whether the requests that are kept are shown too.
    pub all: bool,
}

/// Compares two flows and shows what differs. The exit status is that of the command `diff`: 0 where nothing
/// differs, 1 where something does, 2 where the flows could not be compared.
pub fn diff(asked: &Diff, out: &mut impl Write) -> Outcome {
    match asked.show(out).map_err(Failure::of_comparison)? {
        true => Err(Failure::silent(1)),
        false => Ok(()),
    }
}

impl Diff {
    /// Shows what differs, and says whether anything does.
    fn show(&self, out: &mut impl Write) -> Outcome<bool> {
        let (old, new) = (read(&self.old)?, read(&self.new)?);
        let before = Evening::of(&self.old, &old)?;
        let after = Evening::of(&self.new, &new)?;
        let letters = letters(&before, &after)?;
        let differs = letters.iter().any(|letter| *letter != Letter::Kept);
        if differs || self.all {
            let account = Account::of(&letters, before.requests()?, after.requests()?);
            writeln!(out, "{}\n", headings(&before, &after))?;
            account.show(self.all, out)?;
            writeln!(out)?;
            if differs {
                writeln!(out, "{}.\n", account.summary(before.numbers().kind))?;
            }
        }
        let last = match differs {
            true => totals(before.numbers(), after.numbers()),
            false => same(&before, &after),
        };
        writeln!(out, "{last}")?;
        out.flush()?;
        Ok(differs)
    }
}

/// The lines of the library's account.
fn letters(before: &Evening<'_>, after: &Evening<'_>) -> Outcome<Vec<Letter>> {
    let mut work = vec![0; MIN_WORK];
    let mut account = [0; MAX_ACCOUNT_LENGTH];
    let compared = mav::compare(before.flow, after.flow, &mut work, &mut account)
        .map_err(|refusal| refused(&refusal, before, after))?;
    let lines = account[..compared.length].iter();
    let letters = lines.map(|byte| Letter::of(*byte).expect("a line is K, D or A"));
    Ok(letters.collect())
}

/// What the clerk is told where two accepted flows cannot be compared.
fn refused(refusal: &Refusal, before: &Evening<'_>, after: &Evening<'_>) -> Failure {
    let [old, new] = [before, after].map(|evening| shown(evening.named));
    let (of_old, of_new) = (before.numbers(), after.numbers());
    let has = |old_has: String, new_has: String| {
        format!("; {old} has {old_has}, and {new} has {new_has}")
    };
    let count = |numbers: Accepted| counted(numbers.dispositions, numbers.kind);
    let (why, advice) = match refusal.reason {
        Reason::TooManyRequests => (
            has(count(of_old), count(of_new)),
            "\nCompare the flows house by house, or look for single requests with mavdesk show FILE --find TEXT.",
        ),
        Reason::KindsDiffer => (has(of_old.kind.to_string(), of_new.kind.to_string()), ""),
        _ => (String::new(), ""),
    };
    let line = refusal::line(refusal);
    Failure::refused(format!("{old} and {new}: {line}{why}.{advice}"))
}

/// What both flows are, so that a clerk sees which evening is which.
fn headings(before: &Evening<'_>, after: &Evening<'_>) -> String {
    let [old, new] =
        [before, after].map(|evening| heading(evening.named, evening.flow, evening.numbers().kind));
    format!("BEFORE  {old}\nAFTER   {new}")
}

/// The sentence for two flows in which nothing differs.
fn same(before: &Evening<'_>, after: &Evening<'_>) -> String {
    let [old, new] = [before, after].map(|evening| shown(evening.named));
    let Accepted {
        dispositions,
        cents,
        kind,
        ..
    } = before.numbers();
    let (one, all, total) = (one(kind), counted(dispositions, kind), euro(cents));
    format!("No {one} differs: {old} and {new} both have {all}, {total} euro.")
}

/// The numbers of both flows, and how much more or less the new one has.
fn totals(before: Accepted, after: Accepted) -> String {
    let kind = before.kind.to_string();
    let count = |number: u64| grouped(number);
    let sum = |cents: u64| euro(cents);
    let rows = [
        cells(["", "BEFORE", "AFTER", "DIFFERENCE"]),
        numbers(&kind, count, before.dispositions, after.dispositions),
        numbers("total", sum, before.cents, after.cents),
    ];
    rows.join("\n")
}

fn numbers(what: &str, told: impl Fn(u64) -> String, before: u64, after: u64) -> String {
    let sign = match before.cmp(&after) {
        Ordering::Less => "+",
        Ordering::Equal => "",
        Ordering::Greater => "-",
    };
    let difference = format!("{sign}{}", told(before.abs_diff(after)));
    cells([what, &told(before), &told(after), &difference])
}

fn cells([what, before, after, difference]: [&str; 4]) -> String {
    format!("{what:<12}{before:>22}{after:>22}{difference:>22}")
}
