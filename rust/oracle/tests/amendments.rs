//! Questions and changes, and the ledger held against them.

mod common;

use common::*;
use oracle::amend::{change, withdraw};
use oracle::find::{find, Disposition};
use oracle::generate::{self, Size};
use oracle::ledger::{Call, Ledger};
use oracle::list::{is_canonical, write_flow, write_list};
use oracle::reader::read;
use oracle::rng::Rng;
use oracle::shrink::shrink;
use oracle::{Answer, FlowKind, Refusal};

#[test]
fn where_a_disposition_is() {
    let flow = all_types().bytes();
    let first = Disposition {
        first: 2,
        records: 12,
        cents: 45_000,
        bytes: 120..1_560,
    };
    let second = Disposition {
        first: 14,
        records: 7,
        cents: 38_050,
        bytes: 1_560..2_400,
    };
    assert_eq!(find(&flow, 1), Ok(first));
    assert_eq!(find(&flow, 2), Ok(second));
    assert_eq!(find(&flow, 3), Err(refusal(15, 0, 0)));
    let wrong = all_types().with(21, 114, b"L").bytes();
    assert_eq!(find(&wrong, 9), Err(refusal(10, 21, 114)));
    assert_eq!(find(&[], 1), Err(refusal(1, 0, 0)));
}

/// A name that looks like digits at the places of an amount changes nothing.
#[test]
fn the_trailer_is_no_disposition() {
    let name = b"00000000000000000000";
    let flow = two_rents().with(1, 20, name).with(16, 20, name);
    let flow = flow.with(1, 40, b"000000").with(16, 40, b"000000");
    assert_eq!(flow.read(), accepted(2, 83_050, 16));
    assert_eq!(find(&flow.bytes(), 3), Err(refusal(15, 0, 0)));
}

#[test]
fn the_readers_refusals_come_first_and_touch_nothing() {
    let wrong = two_rents().with(16, 53, b"000000000083051").bytes();
    let due = refused(13, 16, 53);
    for k in [0, 1, 2, 3, u64::MAX] {
        let mut flow = wrong.clone();
        assert_eq!(change(&mut flow, k, u64::MAX), due);
        assert_eq!(withdraw(&mut flow, k), (due, 1_920));
        assert_eq!(flow, wrong);
    }
    assert_eq!(change(&mut [], 1, 1), refused(1, 0, 0));
    assert_eq!(withdraw(&mut [], 1), (refused(1, 0, 0), 0));
    let mut cut = two_rents().bytes()[..1_919].to_vec();
    assert_eq!(withdraw(&mut cut, 1), (refused(1, 0, 0), 1_919));
}

#[test]
fn a_change_to_the_same_amount_changes_nothing() {
    let mut flow = two_rents().bytes();
    assert_eq!(change(&mut flow, 1, 45_000), accepted(2, 83_050, 16));
    assert_eq!(flow, two_rents().bytes());
    assert_eq!(change(&mut flow, 1, 1), accepted(2, 38_051, 16));
    assert_eq!(&flow[153..166], b"0000000000001");
}

/// Each accepted call touches only the positions document 01 names for it.
#[test]
fn only_the_named_positions_differ() {
    for index in 0..3_000 {
        let mut rng = Rng::for_case(21, index);
        let size = Size::any(&mut rng, 100);
        let before = generate::draft(&mut rng, size).flow();
        let Answer::Accepted { dispositions, .. } = read(&before) else {
            panic!("a draft is right");
        };
        let k = generate::disposition_number(&mut rng, dispositions);
        let cents = generate::new_amount(&mut rng);
        let mut after = before.clone();
        let answer = change(&mut after, k, cents);
        check_change(&before, &after, k, answer);
        let mut after = before.clone();
        let (answer, len) = withdraw(&mut after, k);
        check_withdrawal(&before, &after, k, answer, len);
    }
}

fn check_change(before: &[u8], after: &[u8], k: u64, answer: Answer) {
    if let Answer::Refused { .. } = answer {
        assert_eq!(before, after);
        return;
    }
    assert_eq!(read(after), answer);
    let opening = find(before, k).unwrap().bytes.start;
    let trailer = before.len() - 120;
    for index in 0..before.len() {
        let total = total_of(answer);
        let named = (opening + 33..opening + 46).contains(&index)
            || (trailer + total.0 - 1..trailer + total.1).contains(&index);
        assert!(named || before[index] == after[index]);
    }
}

/// First and last position of the trailer's total of an accepted flow.
fn total_of(answer: Answer) -> (usize, usize) {
    match answer {
        Answer::Accepted {
            kind: FlowKind::Recalls,
            ..
        } => (68, 82),
        _ => (53, 67),
    }
}

fn check_withdrawal(before: &[u8], after: &[u8], k: u64, answer: Answer, len: usize) {
    if let Answer::Refused { .. } = answer {
        assert_eq!((before, before.len()), (after, len));
        return;
    }
    assert_eq!(read(&after[..len]), answer);
    assert!(after[len..].iter().all(|&byte| byte == b' '));
    let gone = find(before, k).unwrap().bytes;
    assert_eq!(before.len() - len, gone.len());
    let kept = [&before[..gone.start], &before[gone.end..]].concat();
    for (index, (old, new)) in kept.iter().zip(after).enumerate() {
        let position = index % 120 + 1;
        let (first, last) = total_of(answer);
        let named = match index >= len - 120 {
            true => matches!(position, 46..=52 | 83..=89) || (first..=last).contains(&position),
            false => index >= gone.start && matches!(position, 4..=10),
        };
        assert!(named || old == new);
    }
}

/// Runs a call on the first `len` bytes of `memory`: the answer, and the
/// length of the flow left.
fn run(memory: &mut [u8], len: usize, call: Call) -> (Answer, usize) {
    match call {
        Call::Change { k, cents } => (change(&mut memory[..len], k, cents), len),
        Call::Withdraw { k } => withdraw(&mut memory[..len], k),
    }
}

/// Demand 3, for one flow and one list of calls.
fn check_calls(first: &[u8], calls: &[Call]) {
    let mut memory = first.to_vec();
    let mut len = memory.len();
    let mut ledger = Ledger::new(&list_of(first)).unwrap();
    for &call in calls {
        let (answer, left) = run(&mut memory, len, call);
        let (due, new_len) = ledger.call(call);
        assert_eq!(answer, due, "{call:?}");
        assert_eq!(left, new_len.unwrap_or(len), "{call:?}");
        if let Answer::Refused {
            record, position, ..
        } = due
        {
            assert_eq!((record, position, new_len), (0, 0, None));
        }
        len = left;
    }
    let left = &memory[..len];
    assert!(matches!(read(left), Answer::Accepted { .. }));
    assert_eq!(list_of(left), ledger.list());
    assert!(memory[len..].iter().all(|&byte| byte == b' '));
    if is_canonical(first) {
        let mut due = vec![0; len];
        assert_eq!(write_flow(&ledger.list(), &mut due).1, len);
        assert_eq!(left, due);
    }
}

#[test]
fn the_ledger_agrees_with_the_amendments() {
    for index in 0..3_000 {
        let mut rng = Rng::for_case(31, index);
        let size = Size::any(&mut rng, 60);
        let flow = generate::draft(&mut rng, size).flow();
        let Answer::Accepted { dispositions, .. } = read(&flow) else {
            panic!("a draft is right");
        };
        let calls = generate::calls(&mut rng, dispositions, 30);
        check_calls(&flow, &calls);
    }
}

#[test]
fn an_empty_list_of_calls() {
    check_calls(&two_rents().bytes(), &[]);
}

#[test]
fn the_ledger_by_hand() {
    let mut ledger = Ledger::new(&two_rents_list()).unwrap();
    let change = |k, cents| Call::Change { k, cents };
    let withdraw = |k| Call::Withdraw { k };
    for (call, answer, len) in [
        (change(2, 40_000), accepted(2, 85_000, 16), None),
        (change(0, 1), refused(15, 0, 0), None),
        (change(3, u64::MAX), refused(15, 0, 0), None),
        (change(1, 10_000_000_000_000), refused(16, 0, 0), None),
        (change(1, 0), refused(16, 0, 0), None),
        (withdraw(u64::MAX), refused(15, 0, 0), None),
        (withdraw(1), accepted(1, 40_000, 9), Some(1_080)),
        (withdraw(2), refused(15, 0, 0), None),
        (withdraw(1), refused(18, 0, 0), None),
        (change(1, 38_050), accepted(1, 38_050, 9), None),
    ] {
        assert_eq!(ledger.call(call), (answer, len), "{call:?}");
    }
    let list = two_rents_list();
    assert_eq!(ledger.list(), [&list[..50], &list[50 + 593..]].concat());
}

/// Document 02, E1: the ledger answers with the kind that its H or Q gives.
#[test]
fn the_ledger_of_recalls_by_hand() {
    let mut ledger = Ledger::new(&two_recalls_list()).unwrap();
    let change = |k, cents| Call::Change { k, cents };
    let withdraw = |k| Call::Withdraw { k };
    for (call, answer, len) in [
        (change(2, 40_000), recalled(2, 85_000, 16), None),
        (change(3, 1), refused(15, 0, 0), None),
        (change(1, 10_000_000_000_000), refused(16, 0, 0), None),
        (withdraw(1), recalled(1, 40_000, 9), Some(1_080)),
        (withdraw(1), refused(18, 0, 0), None),
        (change(1, 38_050), recalled(1, 38_050, 9), None),
    ] {
        assert_eq!(ledger.call(call), (answer, len), "{call:?}");
    }
    let list = two_recalls_list();
    assert_eq!(ledger.list(), [&list[..50], &list[50 + 593..]].concat());
}

/// Lists that no flow has: the latest of several headers, and none at all.
#[test]
fn the_kind_of_a_ledger_with_other_headers() {
    let rent = &two_rents_list()[50..];
    let header = |kind| item(kind, &[("", 49)]);
    let change = Call::Change { k: 1, cents: 1 };
    let answer = |list: Vec<u8>| Ledger::new(&list).unwrap().call(change).0;
    let two = [header('H'), header('Q'), rent.to_vec()].concat();
    assert_eq!(answer(two), recalled(2, 38_051, 17));
    let behind = [rent, &header('Q'), &header('H')].concat();
    assert_eq!(answer(behind), accepted(2, 38_051, 17));
    assert_eq!(answer(rent.to_vec()), accepted(2, 38_051, 15));
}

/// A list that no flow has: its sum exceeds 64 bits.
#[test]
fn a_ledger_total_beyond_64_bits() {
    let opening = item('D', &[("310326", 6), ("9999999999999", 13), ("", 39)]);
    let mut ledger = Ledger::new(&opening.repeat(2_000_000)).unwrap();
    let change = |cents| Call::Change { k: 1, cents };
    assert_eq!(ledger.call(change(1)), (refused(17, 0, 0), None));
    // 16 comes before 17.
    assert_eq!(ledger.call(change(0)), (refused(16, 0, 0), None));
    let due = accepted(1_999_999, u64::MAX, 2_000_000);
    let withdraw = Call::Withdraw { k: 2_000_000 };
    assert_eq!(ledger.call(withdraw), (due, Some(240_000_000)));
}

#[test]
fn a_list_that_is_none_has_no_ledger() {
    assert_eq!(Ledger::new(b"Y"), None);
    assert_eq!(Ledger::new(b"Q"), None);
    assert_eq!(Ledger::new(b"D123"), None);
    for cents in ["          450", "0000000000000", "000000000000 "] {
        let opening = item('D', &[("310326", 6), (cents, 13), ("", 39)]);
        assert_eq!(Ledger::new(&opening), None);
    }
}

#[test]
fn shrinking_keeps_the_fault() {
    for index in 0..300 {
        let flow = generate::flow_case(41, index);
        let due = number(read(&flow));
        let small = shrink(&flow, |flow| number(read(flow)) == due);
        assert_eq!(number(read(&small)), due);
        assert!(small.len() <= flow.len());
    }
    // Forty rents with one wrong causale shrink to that one.
    let mut flow = oracle::samples::forty_rents().flow();
    let at = find(&flow, 23).unwrap().bytes.start;
    flow[at + 28..at + 33].copy_from_slice(b"07200");
    let small = shrink(&flow, |flow| number(read(flow)) == Some(6));
    assert_eq!(read(&small), refused(6, 2, 29));
    assert!(small.len() <= 14 * 120);
    // With one recall among them, to that one and one before it.
    flow[at + 28..at + 33].copy_from_slice(b"07100");
    let small = shrink(&flow, |flow| number(read(flow)) == Some(22));
    assert_eq!(number(read(&small)), Some(22));
    let openings = small.chunks(120).filter(|record| &record[1..3] == b"14");
    assert_eq!(openings.count(), 2);
    // A right flow shrinks to one disposition.
    let flow = oracle::samples::forty_rents().flow();
    let small = shrink(&flow, |flow| number(read(flow)).is_none());
    assert!(matches!(
        read(&small),
        Answer::Accepted {
            dispositions: 1,
            ..
        }
    ));
}

fn number(answer: Answer) -> Option<u8> {
    match answer {
        Answer::Accepted { .. } => None,
        Answer::Refused { number, .. } => Some(number),
    }
}

/// No entry point can be made to fail otherwise than by its answer.
#[test]
fn any_bytes_get_an_answer() {
    let mut rng = Rng::new(51);
    for index in 0..5_000 {
        let mut case = Rng::for_case(52, index);
        let bytes = match index % 3 {
            0 => generate::flow(&mut case),
            1 => generate::list(&mut case),
            _ => (0..case.below(700)).map(|_| case.bits() as u8).collect(),
        };
        let before = bytes.clone();
        let mut bytes = bytes;
        let (k, cents) = (rng.below(4), rng.bits());
        let mut out = vec![b'#'; rng.index(2_000)];
        let _: Result<Disposition, Refusal> = find(&bytes, k);
        let written = write_flow(&bytes, &mut out).1;
        assert!(out[written..].iter().all(|&byte| byte == b'#'));
        let mut out = vec![b'#'; rng.index(2_000)];
        let written = write_list(&bytes, &mut out).1;
        assert!(out[written..].iter().all(|&byte| byte == b'#'));
        if let Answer::Refused { .. } = change(&mut bytes, k, cents) {
            assert_eq!(bytes, before);
        }
        let _ = Ledger::new(&bytes);
    }
}
