//! Pairs of flows for what differs between two evenings (document 02, E7).

use oracle::evenings::MIN_WORK;
use oracle::evenings_cases::pair;
use oracle::fields::{amount, write_digits};
use oracle::generate::{self, Draft, Size};
use oracle::record::{field, field_mut, record_type, Record, BLANK_RECORD};
use oracle::rng::Rng;

use crate::cases::{openings, Case};
use crate::entry::Entry;
use crate::rounds::slack;

/// The account of two flows of at most so many requests, mostly few, and some
/// of its lines.
pub fn usual(rng: &mut Rng, most: usize) -> Case {
    let mut pair = pair(rng, most);
    // One flow in a few is replaced: in these each number by which reading
    // refuses comes in its turn.
    let other = match rng.below(12) {
        0 => Some(&mut pair.old),
        1 => Some(&mut pair.new),
        _ => None,
    };
    if let Some(flow) = other {
        *flow = generate::flow_case(rng.bits(), rng.bits());
    }
    asked(rng, pair.old, pair.new, pair.work, &pair.lines)
}

/// The same of two right flows, for which all numbers of requests up to `most`
/// come equally often.
pub fn of_any_size(rng: &mut Rng, most: usize) -> Case {
    let (old, new) = sized(rng, most.max(1));
    // An account has at least as many lines as either flow has requests.
    let (left, right) = (openings(&old), openings(&new));
    let lines = [left.max(right), left + right + 1].map(|last| rng.within(1, last));
    asked(rng, old, new, MIN_WORK, &lines)
}

/// The calls on two flows.
fn asked(rng: &mut Rng, old: Vec<u8>, new: Vec<u8>, work: usize, lines: &[u64]) -> Case {
    let lines = lines.iter().map(|&n| Entry::Line { n });
    Case::Evenings {
        old,
        new,
        // A small case keeps the last call that differs: the account tells
        // more than one of its lines.
        entries: lines.chain([Entry::Compare]).collect(),
        work,
        slack: if rng.one_in(3) { slack(rng) } else { 0 },
        marks: rng.bits(),
    }
}

/// Two right flows, each of any size up to `most`.
fn sized(rng: &mut Rng, most: usize) -> (Vec<u8>, Vec<u8>) {
    let mut draft = generate::draft(rng, Size::Small);
    let stock = stock(rng, &draft.dispositions);
    let count = 1 + rng.index(most);
    let old = any_of(rng, &stock, count);
    let mut new = tonight(rng, &old, &stock, most);
    new.truncate(most);
    draft.trailer = BLANK_RECORD;
    (flow(&mut draft, old), flow(&mut draft, new))
}

type Request = Vec<Record>;

fn flow(draft: &mut Draft, requests: Vec<Request>) -> Vec<u8> {
    draft.dispositions = requests;
    draft.flow()
}

/// Few or many requests, of which any two may differ in one place alone.
fn stock(rng: &mut Rng, first: &[Request]) -> Vec<Request> {
    let size = rng.pick(&[1, 2, 3, 6, 40, 600]);
    let place = rng.pick(&PLACES);
    let numbered = |(number, request): (u64, &Request)| {
        let mut request = request.clone();
        for record in &mut request {
            mark(record, place, number);
        }
        request
    };
    (0..size).zip(first.iter().cycle()).map(numbered).collect()
}

/// Where requests can differ: the type of a record, and the first of three
/// carried positions that digits may fill.
const PLACES: [(&[u8; 2], usize); 8] = [
    (b"14", 44),
    (b"14", 111),
    (b"20", 104),
    (b"30", 84),
    (b"40", 11),
    (b"51", 118),
    (b"70", 96),
    (b"70", 118),
];

/// Puts a number at its place, and makes the sum of many amounts one of 15
/// digits. Each stays above zero, whatever its last three digits become.
fn mark(record: &mut Record, (kind, first): (&[u8; 2], usize), number: u64) {
    if record_type(record) == *b"14" {
        let cents = amount(field(record, 34, 46)).unwrap_or(0) % 1_000_000_000;
        write_digits(field_mut(record, 34, 46), cents.max(1_000));
    }
    if record_type(record) == *kind {
        write_digits(field_mut(record, first, first + 2), number);
    }
}

/// So many requests, each any one of the stock.
fn any_of(rng: &mut Rng, stock: &[Request], count: usize) -> Vec<Request> {
    let any = |_| stock[rng.index(stock.len())].clone();
    (0..count).map(any).collect()
}

/// Tonight's requests after last night's: others of the stock, the same in
/// another order, or most of the same with some dropped and some added.
fn tonight(rng: &mut Rng, old: &[Request], stock: &[Request], most: usize) -> Vec<Request> {
    let mut new = old.to_vec();
    match rng.below(8) {
        0 => {
            let count = 1 + rng.index(most);
            return any_of(rng, stock, count);
        }
        1 => new.reverse(),
        2 => new.rotate_left(rng.index(old.len())),
        _ => {
            let one_in = rng.pick(&[2, 4, 16, 64]);
            new = edited(rng, old, stock, one_in);
        }
    }
    new
}

/// Drops, adds or replaces about one request of so many; one is always left.
fn edited(rng: &mut Rng, old: &[Request], stock: &[Request], one_in: u64) -> Vec<Request> {
    let mut new = Vec::new();
    for request in old {
        let fresh = &stock[rng.index(stock.len())];
        match rng.below(3 * one_in) {
            0 => {}
            1 => new.extend([fresh.clone(), request.clone()]),
            2 => new.push(fresh.clone()),
            _ => new.push(request.clone()),
        }
    }
    if new.is_empty() {
        return old.to_vec();
    }
    new
}

#[cfg(test)]
mod tests {
    use super::*;
    use oracle::reader::read;
    use oracle::Answer;

    #[test]
    fn sized_flows_are_right_and_of_every_size() {
        let mut seen = [false; 41];
        for index in 0..2_000 {
            let (old, new) = sized(&mut Rng::for_case(1, index), 40);
            for flow in [old, new] {
                assert!(matches!(read(&flow), Answer::Accepted { .. }), "{index}");
                seen[openings(&flow) as usize] = true;
            }
        }
        assert!(!seen[0] && seen[1..].iter().all(|&seen| seen));
    }
}
