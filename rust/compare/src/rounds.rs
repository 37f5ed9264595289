//! What is generated: rounds of cases, each round from its seed and index
//! alone.

use oracle::fields::{MAX_AMOUNT, MAX_TOTAL};
use oracle::find::find;
use oracle::generate::{self, Size};
use oracle::ledger::Call;
use oracle::list::layout_of_record;
use oracle::reader::read;
use oracle::record::{field, RECORD_LEN};
use oracle::rng::Rng;
use oracle::Answer;

use crate::cases::{openings, Case};
use crate::entry::Entry;
use crate::evenings;

/// Two flows come in one round of so many: their calls take longer than the
/// others.
const EVENINGS: u64 = 24;
/// The most requests of such a flow: one more than are compared.
const MOST: usize = 257;

/// The cases of one round: a field, a flow, a request list, or a list of
/// calls, each in its turn; after some of them, two flows.
pub fn round(seed: u64, index: u64) -> Vec<Case> {
    let mut rng = Rng::for_case(seed, index);
    let turn = index / 4;
    let mut cases = match index % 4 {
        0 => field_round(&mut rng, turn),
        1 => flow_round(&mut rng, seed, turn),
        2 => list_round(&mut rng, seed, turn),
        _ => vec![call_list(&mut rng)],
    };
    if index % EVENINGS == EVENINGS - 1 {
        cases.push(two_flows(&mut rng, 99, MOST));
    }
    cases
}

/// Pair `index` of a seed in a run of the calls on two flows alone.
pub fn pair(seed: u64, index: u64, most: usize) -> Case {
    two_flows(&mut Rng::for_case(seed, index), 12, most)
}

/// Two flows of usual sizes so many times in a hundred, and of any size up to
/// `most` otherwise.
fn two_flows(rng: &mut Rng, usual: u64, most: usize) -> Case {
    match rng.below(100) < usual {
        true => evenings::usual(rng, most),
        false => evenings::of_any_size(rng, most),
    }
}

/// One call on these bytes.
fn one(rng: &mut Rng, entry: Entry, input: &[u8]) -> Case {
    Case::One {
        entry,
        input: input.to_vec(),
        slack: entry.output().map_or(0, |_| slack(rng)),
        marks: rng.bits(),
    }
}

/// The room of an output beyond what is needed: exact, one too short, none at
/// all, longer, or any amount too short.
pub fn slack(rng: &mut Rng) -> isize {
    match rng.below(12) {
        0 => -1,
        1 => isize::MIN,
        2 => -(rng.below(2_000) as isize),
        3 => 1,
        4 | 5 => rng.below(400) as isize,
        _ => 0,
    }
}

/// Every entry point for fields on one field.
fn field_round(rng: &mut Rng, turn: u64) -> Vec<Case> {
    let len = any_len(rng);
    let field = match turn % 2 {
        0 => day_in_turn(turn / 2),
        _ if rng.one_in(3) => any_field(rng, len),
        _ => near_digits(rng, len),
    };
    let entries = [Entry::Digits, Entry::Amount, Entry::Date];
    entries.map(|entry| one(rng, entry, &field)).into()
}

/// A length of 0 to 20; those of dates, amounts and the longest digits come
/// more often.
fn any_len(rng: &mut Rng) -> usize {
    let any = rng.index(21);
    rng.pick(&[any, any, any, 6, 13, 15])
}

/// Any bytes, or one byte again and again.
fn any_field(rng: &mut Rng, len: usize) -> Vec<u8> {
    match rng.below(6) {
        0 => vec![b' '; len],
        1 => vec![b'9'; len],
        2 => vec![b'0'; len],
        _ => bytes(rng, len),
    }
}

/// Digits, mostly with one byte that is none or only nearly one.
fn near_digits(rng: &mut Rng, len: usize) -> Vec<u8> {
    let mut field: Vec<u8> = (0..len).map(|_| b'0' + rng.below(10) as u8).collect();
    let place = rng.index(len);
    if let Some(byte) = field.get_mut(place) {
        *byte = match rng.below(8) {
            0 => b'/',
            1 => b':',
            2 => b' ',
            3 | 4 => rng.bits() as u8,
            _ => *byte,
        };
    }
    field
}

/// Day 00 to 32 of month 00 to 13 of year 00 to 99, each in its turn.
fn day_in_turn(turn: u64) -> Vec<u8> {
    let (day, month, year) = (turn % 33, turn / 33 % 14, turn / 33 / 14 % 100);
    format!("{day:02}{month:02}{year:02}").into_bytes()
}

fn bytes(rng: &mut Rng, len: usize) -> Vec<u8> {
    (0..len).map(|_| rng.bits() as u8).collect()
}

/// Every entry point for flows on one flow, right or wrong.
fn flow_round(rng: &mut Rng, seed: u64, turn: u64) -> Vec<Case> {
    let flow = match rng.below(200) {
        0 => {
            let edges = generate::edge_flows(rng.bits());
            edges[rng.index(edges.len())].clone()
        }
        1..10 => any_bytes(rng),
        10..70 => generate::flow_to_amend(rng),
        _ => generate::flow_case(seed, turn),
    };
    let count = openings(&flow);
    let mut entries = vec![Entry::Read, Entry::List, Entry::List];
    for _ in 0..2 {
        let mut k = || generate::disposition_number(rng, count);
        entries.push(Entry::Find { k: k() });
        entries.push(Entry::Withdraw { k: k() });
        let k = k();
        let cents = new_amount(rng, &flow, k);
        entries.push(Entry::Change { k, cents });
    }
    let cases = entries.into_iter().map(|entry| one(rng, entry, &flow));
    cases.collect()
}

/// Bytes of any value, few of them, and at times whole records.
fn any_bytes(rng: &mut Rng) -> Vec<u8> {
    let len = match rng.below(3) {
        0 => rng.index(4) * RECORD_LEN,
        _ => rng.index(400),
    };
    bytes(rng, len)
}

/// A new amount for disposition k. Where an amount can make the total the
/// largest one, it mostly does, or makes it one cent more.
fn new_amount(rng: &mut Rng, flow: &[u8], k: u64) -> u64 {
    let any = generate::new_amount(rng);
    let (Answer::Accepted { cents: total, .. }, Ok(found)) = (read(flow), find(flow, k)) else {
        return any;
    };
    let largest = MAX_TOTAL - (total - found.cents);
    if largest > MAX_AMOUNT || rng.one_in(4) {
        return any;
    }
    largest + rng.below(2)
}

/// Writing a request list, with one room and with another.
fn list_round(rng: &mut Rng, seed: u64, turn: u64) -> Vec<Case> {
    let list = match rng.below(20) {
        0 => any_bytes(rng),
        1..10 => carried(rng, &generate::flow_case(seed, turn)),
        _ => generate::list(rng),
    };
    vec![one(rng, Entry::Write, &list), one(rng, Entry::Write, &list)]
}

/// The items of a flow's records, whether the flow is right or not, so that
/// each field can be wrong in a list as well. A header opens a list of either
/// kind: the causale, which would tell it, is not carried.
fn carried(rng: &mut Rng, flow: &[u8]) -> Vec<u8> {
    let (records, _) = flow.as_chunks::<RECORD_LEN>();
    let mut list = Vec::new();
    for record in records {
        if let Some(layout) = layout_of_record(record) {
            list.push(match layout.kind {
                b'H' => rng.pick(b"HQ"),
                kind => kind,
            });
            for &(first, last) in layout.carried {
                list.extend(field(record, first, last));
            }
        }
    }
    list
}

/// A list of calls on a right flow; where it has no call, the flow is only
/// read back to its list and written again.
fn call_list(rng: &mut Rng) -> Case {
    let size = Size::any(rng, 30);
    let flow = generate::draft(rng, size).flow();
    let mut calls = generate::calls(rng, openings(&flow), 12);
    if let Some(Call::Change { k, cents }) = calls.first_mut() {
        *cents = new_amount(rng, &flow, *k);
    }
    Case::Calls {
        flow,
        calls,
        marks: rng.bits(),
    }
}
