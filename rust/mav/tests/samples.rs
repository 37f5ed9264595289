//! Every sample gives the answer that samples/README.md says, and every number of the documents is reached.

mod common;

use common::sample;
use mav::{Accepted, Reason, Refusal};

/// What is asked of a sample.
#[derive(Clone, Copy, Debug)]
enum Call {
    Read,
    /// Write the list to an output of this length.
    Write(usize),
    /// Change the amount of a disposition.
    Change(u64, u64),
    /// Withdraw a disposition.
    Withdraw(u64),
    /// Compare it with another sample, in a working memory of this length.
    Compare(&'static str, usize),
    /// Compare it with the first rent so many times.
    CompareRents(usize),
}

use Call::{Change, Compare, CompareRents, Read, Withdraw, Write};

/// A sample, the call, and the line of the answer due.
type Row = (&'static str, Call, &'static str);

const ACCEPTED: [Row; 10] = [
    (
        "two-rents.flow",
        Read,
        "accepted dispositions 2 cents 83050 records 16 kind requests",
    ),
    (
        "two-rents.list",
        Write(1_920),
        "accepted dispositions 2 cents 83050 records 16 kind requests",
    ),
    (
        "two-rents-recall.flow",
        Read,
        "accepted dispositions 2 cents 83050 records 16 kind recalls",
    ),
    (
        "two-rents-recall.list",
        Write(1_920),
        "accepted dispositions 2 cents 83050 records 16 kind recalls",
    ),
    (
        "two-rents-filler.flow",
        Read,
        "accepted dispositions 2 cents 83050 records 16 kind requests",
    ),
    (
        "one-rent.flow",
        Read,
        "accepted dispositions 1 cents 45000 records 9 kind requests",
    ),
    (
        "forty-rents.flow",
        Read,
        "accepted dispositions 40 cents 2225000 records 368 kind requests",
    ),
    (
        "forty-rents.list",
        Write(44_160),
        "accepted dispositions 40 cents 2225000 records 368 kind requests",
    ),
    (
        "last-night.flow",
        Read,
        "accepted dispositions 8 cents 323300 records 60 kind requests",
    ),
    (
        "tonight.flow",
        Read,
        "accepted dispositions 8 cents 325850 records 60 kind requests",
    ),
];

const REFUSED: [Row; 26] = [
    (
        "refused-01-length.flow",
        Read,
        "refused 1 record 0 position 0",
    ),
    (
        "refused-02-byte.flow",
        Read,
        "refused 2 record 4 position 16",
    ),
    (
        "refused-03-type.flow",
        Read,
        "refused 3 record 7 position 2",
    ),
    (
        "refused-03-empty.list",
        Write(120),
        "refused 3 record 1 position 2",
    ),
    (
        "refused-04-ended.flow",
        Read,
        "refused 4 record 16 position 0",
    ),
    (
        "refused-05-digits.flow",
        Read,
        "refused 5 record 2 position 34",
    ),
    (
        "refused-06-value.flow",
        Read,
        "refused 6 record 9 position 29",
    ),
    (
        "refused-07-blank.flow",
        Read,
        "refused 7 record 11 position 11",
    ),
    (
        "refused-08-date.flow",
        Read,
        "refused 8 record 2 position 23",
    ),
    (
        "refused-09-block-twice.flow",
        Read,
        "refused 9 record 9 position 4",
    ),
    (
        "refused-10-header.flow",
        Read,
        "refused 10 record 9 position 48",
    ),
    (
        "refused-11-company.flow",
        Read,
        "refused 11 record 9 position 92",
    ),
    (
        "refused-12-dispositions.flow",
        Read,
        "refused 12 record 16 position 46",
    ),
    (
        "refused-13-total.flow",
        Read,
        "refused 13 record 16 position 53",
    ),
    (
        "refused-14-records.flow",
        Read,
        "refused 14 record 16 position 83",
    ),
    (
        "two-rents.flow",
        Withdraw(3),
        "refused 15 record 0 position 0",
    ),
    (
        "two-rents.flow",
        Change(1, 10_000_000_000_000),
        "refused 16 record 0 position 0",
    ),
    (
        "refused-17-total.list",
        Write(85_080),
        "refused 17 record 0 position 0",
    ),
    (
        "one-rent.flow",
        Withdraw(1),
        "refused 18 record 0 position 0",
    ),
    (
        "refused-20-item.list",
        Write(1_920),
        "refused 20 record 15 position 0",
    ),
    (
        "two-rents.list",
        Write(1_919),
        "refused 21 record 0 position 0",
    ),
    (
        "refused-22-kind.flow",
        Read,
        "refused 22 record 9 position 29",
    ),
    (
        "refused-25-nothing.flow",
        Read,
        "refused 25 record 9 position 34",
    ),
    (
        "two-rents.flow",
        CompareRents(257),
        "refused 27 record 0 position 0",
    ),
    (
        "two-rents.flow",
        Compare("two-rents-recall.flow", 66_049),
        "refused 28 record 0 position 0",
    ),
    (
        "last-night.flow",
        Compare("tonight.flow", 66_048),
        "refused 34 record 0 position 0",
    ),
];

/// The refusal of a comparison, which has no numbers of a flow.
fn compared(old: &[u8], new: &[u8], work: usize) -> Result<Accepted, Refusal> {
    let told = mav::compare(old, new, &mut vec![0; work], &mut [0; 512]);
    Err(told.expect_err("only refused ones stand here"))
}

/// The flow of the first rent so many times.
fn rents(count: usize) -> Vec<u8> {
    let list = sample("two-rents.list");
    let rents = list[50..643].repeat(count);
    let (_, flow) = mav::write_to_vec(&[&list[..50], &rents].concat()).expect("rents");
    flow
}

/// The answer, and beside a refusal its reason.
fn answer((file, call, _): Row) -> (String, Option<Reason>) {
    let mut bytes = sample(file);
    let answer = match call {
        Read => mav::read(&bytes),
        Write(room) => mav::write(&bytes, &mut vec![0; room]).map(|written| written.accepted),
        Change(k, cents) => mav::change(&mut bytes, k, cents),
        Withdraw(k) => mav::withdraw(&mut bytes, k),
        Compare(new, work) => compared(&bytes, &sample(new), work),
        CompareRents(count) => compared(&bytes, &rents(count), mav::MIN_WORK),
    };
    match answer {
        Ok(accepted) => (accepted.to_string(), None),
        Err(refusal) => (refusal.to_string(), Some(refusal.reason)),
    }
}

#[test]
fn right_samples_are_accepted() {
    for row in ACCEPTED {
        assert_eq!(answer(row), (row.2.to_string(), None), "{row:?}");
    }
}

#[test]
fn every_refusal_is_the_one_due_with_its_sentence() {
    for row in REFUSED {
        let (said, reason) = answer(row);
        let reason = reason.unwrap_or_else(|| panic!("{row:?} is accepted"));
        assert_eq!(said, format!("{}: {reason}", row.2), "{row:?}");
    }
}

#[test]
fn every_number_of_the_documents_is_reached() {
    let mut reached: Vec<Reason> = REFUSED
        .into_iter()
        .filter_map(|row| answer(row).1)
        .collect();
    reached.dedup();
    assert_eq!(reached, Reason::ALL);
}

#[test]
fn the_numbers_are_those_of_the_documents() {
    let due = [
        1, 2, 3, 4, 5, 6, 7, 8, 9, 10, 11, 12, 13, 14, 15, 16, 17, 18, 20, 21, 22, 25, 27, 28, 34,
    ];
    let numbers: Vec<u64> = Reason::ALL.iter().map(|reason| reason.number()).collect();
    assert_eq!(numbers, due);
    for number in 0..=1_000 {
        let reason = Reason::from_number(number);
        assert_eq!(reason.is_some(), due.contains(&number), "{number}");
        assert!(reason.is_none_or(|reason| reason.number() == number));
    }
    // Numbers that a cast to eight bits would take for 1 and 5.
    assert_eq!(Reason::from_number(257), None);
    assert_eq!(Reason::from_number((1 << 32) + 5), None);
    assert_eq!(Reason::from_number(u64::MAX), None);
}

#[test]
fn every_sentence_is_its_own_and_of_one_form() {
    let sentences: Vec<String> = Reason::ALL.iter().map(Reason::to_string).collect();
    for (i, sentence) in sentences.iter().enumerate() {
        assert!(
            sentence.starts_with(|first: char| first.is_ascii_lowercase()),
            "{sentence}"
        );
        assert!(
            sentence.ends_with(|last: char| last.is_ascii_lowercase()),
            "{sentence}"
        );
        assert!(!sentences[..i].contains(sentence), "{sentence}");
    }
}
