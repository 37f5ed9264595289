//! Small cases out of large ones that differ.

use oracle::ledger::Call;
use oracle::shrink::shrink;

use crate::cases::{openings, Case};
use crate::entry::{Entry, Form};
use crate::report::rows;
use crate::sides::Sides;
use crate::tally::Tally;

/// Drops calls, dispositions and items while the case still differs.
pub fn smallest(sides: &Sides, case: &Case) -> Case {
    let differs = |case: &Case| case.check(sides, &mut Tally::default()).is_err();
    let case = fewer_calls(case, differs);
    match case.form() {
        Form::Flow => fewer_calls(&smaller_flows(&case, differs), differs),
        Form::List => smaller_list(&case, differs),
        Form::Field | Form::Account => case,
    }
}

/// Drops calls of a list of calls, or on two flows.
fn fewer_calls(case: &Case, differs: impl Fn(&Case) -> bool) -> Case {
    match case {
        Case::One { .. } => case.clone(),
        Case::Calls { flow, calls, marks } => {
            let with = |calls: &[Call]| Case::Calls {
                flow: flow.clone(),
                calls: calls.to_vec(),
                marks: *marks,
            };
            with(&dropped(calls, |calls| differs(&with(calls))))
        }
        Case::Evenings { entries, .. } => {
            let with = |left: &[Entry]| {
                let mut case = case.clone();
                if let Case::Evenings { entries, .. } = &mut case {
                    *entries = left.to_vec();
                }
                case
            };
            with(&dropped(entries, |left| differs(&with(left))))
        }
    }
}

/// Drops dispositions of every flow of the case. Of two flows one can often
/// lose more once the other has lost some.
fn smaller_flows(case: &Case, differs: impl Fn(&Case) -> bool) -> Case {
    let mut smaller = case.clone();
    let places = match case {
        Case::Evenings { .. } => &[0, 1, 0, 1][..],
        _ => &[0],
    };
    for &place in places {
        smaller = smaller_flow(&smaller, place, &differs);
    }
    smaller
}

/// Drops dispositions of the flow at this place of the inputs.
fn smaller_flow(case: &Case, place: usize, differs: impl Fn(&Case) -> bool) -> Case {
    let input = case.inputs()[place];
    let count = match named(&mut case.clone()).is_empty() {
        true => 0,
        false => openings(input),
    };
    let fit = |flow: &[u8]| {
        // Of the dispositions gone any number may have stood before the one
        // that a call names. Not all of very many are tried.
        let gone = count.saturating_sub(openings(flow));
        let lowered = (0..=gone).step_by(1 + gone as usize / 32);
        let mut lowered = lowered.map(|by| lower(case.with(place, flow), by));
        lowered.find(|case| differs(case))
    };
    let flow = shrink(input, |flow| fit(flow).is_some());
    fit(&flow).unwrap_or_else(|| case.clone())
}

/// Lowers every number of a disposition or a line that the case names.
fn lower(mut case: Case, by: u64) -> Case {
    for number in named(&mut case) {
        *number = number.saturating_sub(by);
    }
    case
}

/// The numbers of dispositions and lines that the case names.
fn named(case: &mut Case) -> Vec<&mut u64> {
    match case {
        Case::One { entry, .. } => number_in(entry).into_iter().collect(),
        Case::Evenings { entries, .. } => entries.iter_mut().filter_map(number_in).collect(),
        Case::Calls { calls, .. } => calls
            .iter_mut()
            .map(|(Call::Change { k, .. } | Call::Withdraw { k })| k)
            .collect(),
    }
}

fn number_in(entry: &mut Entry) -> Option<&mut u64> {
    match entry {
        Entry::Find { k } | Entry::Change { k, .. } | Entry::Withdraw { k } => Some(k),
        Entry::Line { n } => Some(n),
        _ => None,
    }
}

/// Drops the items of whole dispositions, then single items.
fn smaller_list(case: &Case, differs: impl Fn(&Case) -> bool) -> Case {
    let holds = |parts: &[Vec<u8>]| differs(&case.with(0, &parts.concat()));
    let items = rows(Form::List, case.inputs()[0]);
    let blocks: Vec<Vec<u8>> = items
        .chunk_by(|_, next| !next.starts_with(b"D"))
        .map(<[&[u8]]>::concat)
        .collect();
    let list = dropped(&blocks, holds).concat();
    let items: Vec<Vec<u8>> = rows(Form::List, &list)
        .into_iter()
        .map(<[u8]>::to_vec)
        .collect();
    case.with(0, &dropped(&items, holds).concat())
}

/// Drops parts, all at once and then fewer at a time, while the predicate
/// holds of what is left. It must hold of the parts themselves.
fn dropped<T: Clone>(parts: &[T], holds: impl Fn(&[T]) -> bool) -> Vec<T> {
    let mut left = parts.to_vec();
    let mut chunk = left.len();
    while chunk > 0 {
        let mut from = 0;
        while from < left.len() {
            let mut tried = left.clone();
            tried.drain(from..left.len().min(from + chunk));
            if holds(&tried) {
                left = tried;
            } else {
                from += chunk;
            }
        }
        chunk /= 2;
    }
    left
}
