//! Amount change and withdrawal: what will change is shown, the clerk is asked, and the flow is saved.

use std::fs;
use std::io::{ErrorKind, Write};
use std::path::Path;

use mav::{Accepted, Dispositions, Reason, Refusal};

use crate::euro::{grouped, shown as euro};
use crate::failure::{Failure, Outcome};
use crate::input::copy;
use crate::kind::{counted, one};
use crate::name::shown;
use crate::output::{confirm, saved};
use crate::refusal;
use crate::request::{titles, Request};
use crate::save::Target;

/// A flow that is locked and accepted, and that may be amended.
struct Open<'a> {
    named: &'a Path,
    target: &'a Target,
    flow: &'a [u8],
    requests: Dispositions<'a>,
}

/// Gives request `k` another amount.
pub fn amount(named: &Path, k: u64, cents: u64, yes: bool, out: &mut impl Write) -> Outcome {
    let (target, flow) = locked(named)?;
    let open = Open::new(named, &target, &flow)?;
    let mut amended = copy(&flow)?;
    let left = mav::change(&mut amended, k, cents)
        .map_err(|refusal| open.refused_amount(&refusal, k, cents))?;
    let found = mav::find(&flow, k).map_err(|refusal| open.refused(&refusal, k))?;
    let request = Request::of(found);
    let kind = open.numbers().kind;
    writeln!(out, "{}: {}\n", shown(named), request.named(kind))?;
    if amended == flow {
        writeln!(
            out,
            "Its amount is {} already; there is nothing to save.",
            euro(cents)
        )?;
        return Ok(());
    }
    let amount = format!("{} {k}, amount", one(kind));
    let rows = [[amount, euro(request.cents), euro(cents)]];
    open.save(&rows, left, &amended, yes, out)
}

/// Takes requests out, all or none. The numbers are those of the flow as it is, rising.
pub fn withdraw(named: &Path, numbers: &[u64], yes: bool, out: &mut impl Write) -> Outcome {
    let (target, flow) = locked(named)?;
    let open = Open::new(named, &target, &flow)?;
    let mut amended = copy(&flow)?;
    let mut left = open.numbers();
    // From the last one on: a withdrawal gives later requests new numbers, and the earlier ones keep theirs.
    for &k in numbers.iter().rev() {
        left = mav::withdraw(&mut amended, k).map_err(|refusal| open.refused(&refusal, k))?;
    }
    let gone = counted(numbers.len() as u64, left.kind);
    writeln!(
        out,
        "{}: {gone} to be withdrawn\n\n{}",
        shown(named),
        titles()
    )?;
    for request in open.requests.clone().map(Request::of) {
        if numbers.binary_search(&request.number).is_ok() {
            writeln!(out, "{}", request.row())?;
        }
    }
    writeln!(out)?;
    let first = numbers.first().copied().unwrap_or(0);
    if first <= left.dispositions {
        let kind = left.kind;
        writeln!(out, "The {kind} left are numbered anew from {first} on.\n")?;
    }
    open.save(&[], left, &amended, yes, out)
}

/// Locks and reads a flow.
fn locked(named: &Path) -> Outcome<(Target, Vec<u8>)> {
    // A file that is not there is told as such, and not that it cannot be locked.
    let unread = |error| Failure::of_file(named, "cannot be read", &error);
    fs::metadata(named).map_err(unread)?;
    let target = Target::lock(named)?;
    let gone = || unread(ErrorKind::NotFound.into());
    let flow = target.read()?.ok_or_else(gone)?;
    Ok((target, flow))
}

impl<'a> Open<'a> {
    /// A flow as it was locked, which must be accepted.
    fn new(named: &'a Path, target: &'a Target, flow: &'a [u8]) -> Outcome<Open<'a>> {
        Ok(Open {
            named,
            target,
            flow,
            requests: refusal::accepted(named, flow)?,
        })
    }

    /// The numbers of the flow before it is amended.
    fn numbers(&self) -> Accepted {
        self.requests.accepted()
    }

    /// What the clerk is told where the library refuses the amendment of request `k`.
    fn refused(&self, refusal: &Refusal, k: u64) -> Failure {
        self.advised(refusal, k, "")
    }

    /// The same of a new amount. Who gives zero wants the request out, and a flow has at least one.
    fn refused_amount(&self, refusal: &Refusal, k: u64, cents: u64) -> Failure {
        let numbers = self.numbers();
        let advice = match (refusal.reason, cents, numbers.dispositions) {
            (Reason::NotAnAmount, 0, 1) => "; keep the flow back instead".to_owned(),
            (Reason::NotAnAmount, 0, _) => format!("; withdraw the {} instead", one(numbers.kind)),
            _ => String::new(),
        };
        self.advised(refusal, k, &advice)
    }

    /// The same with what to do.
    fn advised(&self, refusal: &Refusal, k: u64, advice: &str) -> Failure {
        let also = format!("{advice}; nothing was changed");
        refusal::of_request(refusal, self.named, k, self.numbers(), &also)
    }

    /// Shows what will change, asks, and saves.
    fn save(
        &self,
        rows: &[[String; 3]],
        left: Accepted,
        amended: &[u8],
        yes: bool,
        out: &mut impl Write,
    ) -> Outcome {
        writeln!(out, "{:<24}{:>24}{:>24}", "", "BEFORE", "AFTER")?;
        for [what, before, after] in rows.iter().chain(&trailer(self.numbers(), left)) {
            writeln!(out, "{what:<24}{before:>24}{after:>24}")?;
        }
        writeln!(out)?;
        if !yes {
            confirm(out, "Save it?", "not saved: the flow is as it was.")?;
        }
        out.flush()?;
        self.target.save(Some(self.flow), amended)?;
        saved(out, "flow", Some(&self.target.kept_as()))
    }
}

/// The rows of the trailer, before and after.
fn trailer(before: Accepted, after: Accepted) -> [[String; 3]; 3] {
    let row = |what: &str, shown: &dyn Fn(Accepted) -> String| {
        [what.to_owned(), shown(before), shown(after)]
    };
    [
        row(&format!("trailer, {}", before.kind), &|numbers| {
            grouped(numbers.dispositions)
        }),
        row("trailer, total", &|numbers| euro(numbers.cents)),
        row("trailer, records", &|numbers| grouped(numbers.records)),
    ]
}
