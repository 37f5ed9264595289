//! What became of the requests of one evening in the next, by the library's account of it. That a dropped
//! request and an added one belong together is said here, so that a clerk sees what became of each tenant.

use std::io::Write;
use std::mem::take;

use mav::{FlowKind, Letter};

use crate::euro::{grouped, shown as euro};
use crate::evening::EveningRequest;
use crate::failure::Outcome;
use crate::kind::counted;
use crate::output::listed;
use crate::request::{date, debtor_text};

/// The requests by what became of them. Of a pair the first is of the old flow and the second of the new one.
pub struct Account<'a> {
    dropped: Vec<EveningRequest<'a>>,
    added: Vec<EveningRequest<'a>>,
    /// A dropped and an added one of the same debtor.
    changed: Vec<Pair<'a>>,
    /// A dropped and an added one that are the same: it only stands elsewhere.
    moved: Vec<Pair<'a>>,
    kept: Vec<Pair<'a>>,
}

type Pair<'a> = (EveningRequest<'a>, EveningRequest<'a>);

/// The titles over the rows.
const TITLES: [&str; 6] = ["", "BEFORE", "AFTER", "DUE", "AMOUNT", "DEBTOR"];

impl<'a> Account<'a> {
    /// The requests of both flows by the account's lines: a kept one is the next of both, a dropped one the
    /// next of the old flow, an added one the next of the new flow.
    pub fn of(
        letters: &[Letter],
        before: Vec<EveningRequest<'a>>,
        after: Vec<EveningRequest<'a>>,
    ) -> Account<'a> {
        let counts = (before.len(), after.len());
        let (mut before, mut after) = (before.into_iter(), after.into_iter());
        let (mut dropped, mut added, mut kept) = (Vec::new(), Vec::new(), Vec::new());
        for letter in letters {
            match letter {
                Letter::Kept => kept.extend(before.next().zip(after.next())),
                Letter::Dropped => dropped.extend(before.next()),
                Letter::Added => added.extend(after.next()),
            }
        }
        let told = (kept.len() + dropped.len(), kept.len() + added.len());
        assert_eq!(told, counts, "an account goes through both flows");
        // First those that are the same: else two of one debtor that changed places would seem to have
        // changed their amounts.
        let moved = paired(&mut dropped, &mut added, |a, b| a.is_same(b));
        let changed = paired(&mut dropped, &mut added, |a, b| a.debtor == b.debtor);
        Account {
            dropped,
            added,
            changed,
            moved,
            kept,
        }
    }

    /// Shows a row for each request that differs, and for each that is kept where all are wanted.
    pub fn show(&self, all: bool, out: &mut impl Write) -> Outcome {
        writeln!(out, "{}", line(TITLES))?;
        for request in &self.dropped {
            let row = row("dropped", [Some(request.number), None], request);
            writeln!(out, "{row}")?;
        }
        for request in &self.added {
            let row = row("added", [None, Some(request.number)], request);
            writeln!(out, "{row}")?;
        }
        for (before, after) in &self.changed {
            let row = row("changed", [Some(before.number), None], before);
            writeln!(out, "{row}\n{}", now(before, after))?;
        }
        let kept = if all { &self.kept[..] } else { &[] };
        for (word, pairs) in [("moved", &self.moved[..]), ("kept", kept)] {
            for (before, after) in pairs {
                let numbers = [Some(before.number), Some(after.number)];
                writeln!(out, "{}", row(word, numbers, after))?;
            }
        }
        Ok(())
    }

    /// How many of each there are, as `1 request dropped, 2 added, 6 kept`. What there is none of is left
    /// out, but for those that are kept.
    pub fn summary(&self, kind: FlowKind) -> String {
        let mut counts = vec![
            (self.dropped.len(), "dropped"),
            (self.added.len(), "added"),
            (self.changed.len(), "changed"),
            (self.moved.len(), "moved"),
        ];
        counts.retain(|(count, _)| *count > 0);
        counts.push((self.kept.len(), "kept"));
        let told = |(index, (count, word)): (usize, &(usize, &str))| match index {
            0 => format!("{} {word}", counted(*count as u64, kind)),
            _ => format!("{} {word}", grouped(*count as u64)),
        };
        let told: Vec<String> = counts.iter().enumerate().map(told).collect();
        told.join(", ")
    }
}

/// Takes each dropped request, in order, out with the first added one that belongs to it.
fn paired<'a>(
    dropped: &mut Vec<EveningRequest<'a>>,
    added: &mut Vec<EveningRequest<'a>>,
    belongs: impl Fn(&EveningRequest<'a>, &EveningRequest<'a>) -> bool,
) -> Vec<Pair<'a>> {
    let mut pairs = Vec::new();
    for request in take(dropped) {
        match added.iter().position(|other| belongs(&request, other)) {
            Some(index) => pairs.push((request, added.remove(index))),
            None => dropped.push(request),
        }
    }
    pairs
}

/// A request as a row, with its numbers in the old flow and in the new one, where it is there.
fn row(word: &str, numbers: [Option<u64>; 2], request: &EveningRequest<'_>) -> String {
    let told = |number: Option<u64>| number.map_or(String::new(), |number| number.to_string());
    let [before, after] = numbers.map(told);
    line([
        word,
        &before,
        &after,
        &date(request.due),
        &euro(request.cents),
        &debtor_text(request.debtor),
    ])
}

/// What differs in a changed request, for the line under its row: its due date, its amount, and where else.
fn now(before: &EveningRequest<'_>, after: &EveningRequest<'_>) -> String {
    let number = after.number.to_string();
    let others = records(&before.other_records(after));
    let changed = |differs: bool, text: String| if differs { text } else { String::new() };
    let due = changed(before.due != after.due, date(after.due));
    let amount = changed(before.cents != after.cents, euro(after.cents));
    if due.is_empty() && amount.is_empty() {
        let front = line(["    now", "", &number, "", "", ""]);
        return format!("{front}  same amount and due date; {others}");
    }
    let others = changed(!others.is_empty(), format!("{others} too"));
    line(["    now", "", &number, &due, &amount, &others])
}

/// The records that differ, in words; nothing where there are none.
fn records(types: &[String]) -> String {
    match types {
        [] => String::new(),
        [one] => format!("record {one} differs"),
        several => format!("records {} differ", listed(several)),
    }
}

fn line([word, before, after, due, amount, debtor]: [&str; 6]) -> String {
    format!("{word:<7}{before:>8}{after:>7}  {due:<10} {amount:>17}  {debtor}")
        .trim_end()
        .to_owned()
}
