//! The tables of a run, each measured and then printed.

use std::cell::RefCell;
use std::hint::black_box;

use mav::{MAX_ACCOUNT_LENGTH, MIN_WORK};
use oracle::reader;
use oracle::record::RECORD_LEN;

use crate::calls::{account_agreed, agreed, compared, Call, Comparer, COMPARERS, OURS, PLAIN};
use crate::flows::{self, Evenings, Indent, LARGE, LARGE_BYTES};
use crate::sum::sum;
use crate::table::{grouped, micros, nanos_each, ratio, say, Table};
use crate::time::{self, side_by_side, Memory, Times};

/// The place of the times of the plain code that hashes.
const HASHED: usize = 2;

/// The titles of the times of both sides.
const BOTH: [&str; 6] = [
    "ours us",
    "ns/record",
    "plain us",
    "ns/record",
    "ours/plain",
    "median",
];

/// Reading the large flow: ours, the plain reader, and the sum of the bytes.
pub fn reading(flow: &[u8], rounds: usize) {
    assert_eq!(flow.len(), LARGE_BYTES);
    agreed(Call::Read, flow);
    let bytes = |_: &mut [u8]| {
        black_box(sum(black_box(flow)));
    };
    let calls: [time::Call; 3] = [&ours(flow), &plain(flow), &bytes];
    let times = side_by_side(rounds, &mut Memory::none(), calls);
    let mut table = Table::new(&[
        "pass",
        "best us",
        "ns/record",
        "GB/s",
        "ours/this",
        "median",
    ]);
    for (side, name) in ["ours", "plain Rust", "sum of bytes"].iter().enumerate() {
        table.row([
            name.to_string(),
            micros(times.best(side)),
            nanos_each(times.best(side), records(flow)),
            format!("{:.2}", flow.len() as f64 / times.best(side) / 1e9),
            ratio(times.ratio(OURS, side)),
            ratio(times.median_ratio(OURS, side)),
        ]);
    }
    say(&format!(
        "1. Reading {} dispositions, {} bytes; {rounds} rounds\n\n{table}",
        grouped(LARGE),
        grouped(flow.len() as u64)
    ));
}

/// Reading by the proved library, as a call to be measured.
fn ours(flow: &[u8]) -> impl Fn(&mut [u8]) + '_ {
    move |_| {
        black_box(mav::read(black_box(flow))).ok();
    }
}

/// The same by the plain reader.
fn plain(flow: &[u8]) -> impl Fn(&mut [u8]) + '_ {
    move |_| {
        black_box(reader::read(black_box(flow)));
    }
}

/// Reading requests and recalls that are alike in all else, in the same
/// rounds, so that one kind's times can be held against the other's.
pub fn kinds(rounds: usize) {
    let mut table = Table::new(&[&["flow", "dispositions"], &BOTH[..]].concat());
    for dispositions in [10_000, LARGE] {
        let requests = flows::usual(dispositions);
        let recalls = flows::recalled(requests.clone());
        agreed(Call::Read, &requests);
        agreed(Call::Read, &recalls);
        let calls: [time::Call; 4] = [
            &ours(&requests),
            &plain(&requests),
            &ours(&recalls),
            &plain(&recalls),
        ];
        let times = side_by_side(rounds, &mut Memory::none(), calls);
        for (name, sides) in [("requests", [0, 1]), ("recalls", [2, 3])] {
            let times = times.of(sides);
            table.row(call_row(name, dispositions, &times, records(&requests)));
        }
    }
    say(&format!("   Requests and recalls\n\n{table}"));
}

/// How the time of reading grows with the flow.
pub fn growth(rounds: usize) {
    let titles = [&["dispositions"], &BOTH[..], &["ours grows", "plain grows"]].concat();
    let mut table = Table::new(&titles);
    let mut first = None;
    for dispositions in [1_000, 3_000, 10_000, 30_000, LARGE] {
        let flow = flows::usual(dispositions);
        let times = compared(Call::Read, &flow, rounds);
        let each = [OURS, PLAIN].map(|side| times.best(side) / records(&flow) as f64);
        let start = first.get_or_insert(each);
        let [a, b, c, d, e, f] = both(&times, records(&flow));
        let [ours, plain] = [OURS, PLAIN].map(|side| ratio(each[side] / start[side]));
        table.row([grouped(dispositions), a, b, c, d, e, f, ours, plain]);
    }
    say(&format!(
        "2. Reading, from small to large. \"grows\": ns/record by that of the first row\n\n{table}"
    ));
}

/// Amount change and withdrawal, each on a fresh copy of the flow.
pub fn amendments(rounds: usize) {
    let mut table = Table::new(&[&["call", "dispositions"], &BOTH[..]].concat());
    for dispositions in [1_000, 10_000, LARGE] {
        let flow = flows::usual(dispositions);
        let change = |k| Call::Change { k, cents: 123_456 };
        for (name, call) in [
            ("change the first", change(1)),
            ("change the middle", change(dispositions / 2)),
            ("change the last", change(dispositions)),
            ("withdraw the first", Call::Withdraw { k: 1 }),
        ] {
            let times = compared(call, &flow, rounds);
            table.row(call_row(name, dispositions, &times, records(&flow)));
        }
    }
    say(&format!("3. Amount change and withdrawal\n\n{table}"));
}

/// Reading the large flow back to its list, and writing it from the list.
pub fn lists(flow: &[u8], rounds: usize) {
    let mut table = Table::new(&[&["call", "dispositions"], &BOTH[..]].concat());
    let (_, list) = agreed(Call::ReadBack, flow);
    for (name, call, input) in [
        ("read back to a list", Call::ReadBack, flow),
        ("write a list", Call::Write, &list),
    ] {
        let times = compared(call, input, rounds);
        table.row(call_row(name, LARGE, &times, records(flow)));
    }
    say(&format!("   Lists\n\n{table}"));
}

/// Reading the flows that are the worst for a reader with a fast path.
pub fn slow_flows(rounds: usize) {
    const DISPOSITIONS: u64 = 10_000;
    let mut table = Table::new(&[&["flow", "dispositions"], &BOTH[..]].concat());
    for (name, indent) in [
        ("text after one blank", Indent::One),
        ("text at the field's last byte", Indent::Most),
    ] {
        let flow = flows::slow(DISPOSITIONS, indent);
        let times = compared(Call::Read, &flow, rounds);
        table.row(call_row(name, DISPOSITIONS, &times, records(&flow)));
    }
    say(&format!(
        "4. Reading flows with 16, five 59 and P or B in each disposition\n\n{table}"
    ));
}

/// What differs between two evenings: ours beside plain code that compares
/// requests in place, as ours does, and beside plain code that hashes them.
pub fn evenings(rounds: usize) {
    let mut table = Table::new(&[
        "two evenings",
        "kept",
        "ours us",
        "plain us",
        "ours/plain",
        "median",
        "hashed us",
        "ours/hashed",
        "median",
    ]);
    for evenings in flows::evenings() {
        account_agreed(&evenings);
        let work = RefCell::new(vec![0; MIN_WORK]);
        let [ours, plain, hashed] = COMPARERS.map(|comparer| comparing(comparer, &evenings, &work));
        let times = side_by_side(
            rounds,
            &mut Memory::room(MAX_ACCOUNT_LENGTH),
            [&ours, &plain, &hashed],
        );
        let [by_plain, by_hashed] = [PLAIN, HASHED].map(|side| {
            [
                micros(times.best(side)),
                ratio(times.ratio(OURS, side)),
                ratio(times.median_ratio(OURS, side)),
            ]
        });
        let [a, b, c] = by_plain;
        let [d, e, f] = by_hashed;
        let (name, kept) = (evenings.name.to_string(), grouped(evenings.kept));
        table.row([name, kept, micros(times.best(OURS)), a, b, c, d, e, f]);
    }
    say(&format!(
        "6. What differs between two evenings of {} dispositions each\n\n{table}",
        mav::MAX_COMPARED
    ));
}

/// A comparison of two evenings, as a call to be measured.
fn comparing<'a>(
    comparer: Comparer,
    Evenings { old, new, .. }: &'a Evenings,
    work: &'a RefCell<Vec<u16>>,
) -> impl Fn(&mut [u8]) + 'a {
    move |account| {
        let mut work = work.borrow_mut();
        let (old, new) = (black_box(&old[..]), black_box(&new[..]));
        black_box(comparer(old, new, black_box(&mut work), black_box(account))).ok();
    }
}

fn call_row(name: &str, dispositions: u64, times: &Times<2>, records: u64) -> [String; 8] {
    let [a, b, c, d, e, f] = both(times, records);
    [name.to_string(), grouped(dispositions), a, b, c, d, e, f]
}

/// The cells under the titles `BOTH`.
fn both(times: &Times<2>, records: u64) -> [String; 6] {
    [
        micros(times.best(OURS)),
        nanos_each(times.best(OURS), records),
        micros(times.best(PLAIN)),
        nanos_each(times.best(PLAIN), records),
        ratio(times.ratio(OURS, PLAIN)),
        ratio(times.median_ratio(OURS, PLAIN)),
    ]
}

fn records(flow: &[u8]) -> u64 {
    (flow.len() / RECORD_LEN) as u64
}
