//! No request for nothing: document 02, E5. Every value due is reasoned from
//! the documents.

mod common;

use std::collections::BTreeMap;

use common::*;
use oracle::amend::{change, withdraw};
use oracle::evenings::{compare, line, MIN_WORK};
use oracle::find::find;
use oracle::generate::{self, Size};
use oracle::ledger::{Call, Ledger};
use oracle::list::{is_canonical, items, write_flow, write_list};
use oracle::reader::read;
use oracle::rng::Rng;
use oracle::Answer;

const ZERO: &[u8] = b"0000000000000";
const ONE: &[u8] = b"0000000000001";
const MAX: u64 = 9_999_999_999_999;

/// The two rents with an amount of zero at this record, 2 or 9, and a total that
/// agrees; as requests and as recalls.
fn with_zero(record: usize) -> [Flow; 2] {
    let total = match record {
        2 => b"000000000038050",
        _ => b"000000000045000",
    };
    [
        two_rents().with(record, 34, ZERO).with(16, 53, total),
        two_recalls().with(record, 34, ZERO).with(16, 68, total),
    ]
}

#[test]
fn number_25_at_the_record_and_34() {
    for record in [2, 9] {
        for flow in with_zero(record) {
            assert_eq!(flow.read(), refused(25, record as u64, 34));
        }
        // Whatever the trailer's total is.
        for right in [two_rents(), two_recalls()] {
            let flow = right.with(record, 34, ZERO);
            assert_eq!(flow.read(), refused(25, record as u64, 34));
        }
    }
    for recalls in [false, true] {
        let place = if recalls { 68 } else { 53 };
        for (record, total) in [
            (2, b"000000000083050"),
            (9, b"000000000090000"),
            (16, b"000000000083050"),
        ] {
            let flow = three_rents(recalls).with(record, 34, ZERO);
            let agreed = flow.clone().with(23, place, total);
            assert_eq!(flow.read(), refused(25, record as u64, 34));
            assert_eq!(agreed.read(), refused(25, record as u64, 34));
        }
        let all = [2, 9, 16]
            .into_iter()
            .fold(three_rents(recalls), |flow, record| {
                flow.with(record, 34, ZERO).with(23, place, &[b'0'; 15])
            });
        assert_eq!(all.read(), refused(25, 2, 34));
    }
}

#[test]
fn an_amount_of_one_cent_is_accepted() {
    let flow = two_rents()
        .with(9, 34, ONE)
        .with(16, 53, b"000000000045001");
    assert_eq!(flow.read(), accepted(2, 45_001, 16));
    let flow = two_recalls()
        .with(2, 34, ONE)
        .with(9, 34, ONE)
        .with(16, 68, b"000000000000002");
    assert_eq!(flow.read(), recalled(2, 2, 16));
    for place in 0..13 {
        let mut amount = *b"0000000000000";
        amount[place] = b'1';
        let cents = 10_u64.pow(12 - place as u32) + 45_000;
        let total = format!("{cents:015}");
        let flow = two_rents()
            .with(9, 34, &amount)
            .with(16, 53, total.as_bytes());
        assert_eq!(flow.read(), accepted(2, cents, 16), "{place}");
    }
}

#[test]
fn what_comes_before_25_in_its_record() {
    for (flow, other) in with_zero(9).into_iter().zip([b"07100", b"07000"]) {
        for (position, bytes, number, first) in [
            (1, &b"\0"[..], 2, 1),
            (40, b"\x1f", 2, 40),
            (47, b"\x80", 2, 47),
            (120, b"\x7f", 2, 120),
            (2, b"41", 3, 2),
            (4, b"000000:", 5, 4),
            (4, b"0000003", 9, 4),
            (4, b"0000001", 9, 4),
            (23, b"29022:", 5, 23),
            (23, b"290227", 8, 23),
            (29, b"07200", 6, 29),
            (29, other, 22, 29),
            (34, b" ", 5, 34),
            (40, b"O", 5, 34),
            (46, b":", 5, 34),
            (46, b" ", 5, 34),
        ] {
            let flow = flow.clone().with(9, position, bytes);
            assert_eq!(flow.read(), refused(number, 9, first), "{position}");
        }
    }
}

#[test]
fn what_comes_after_25_in_its_record() {
    for flow in with_zero(9) {
        for (position, bytes) in [
            (1, &b"~"[..]),
            (11, b"FILLER"),
            (47, b" "),
            (47, b"0"),
            (48, b"0123:"),
            (48, b"01235"),
            (53, b":"),
            (70, b"FILLER"),
            (92, b"AB124"),
            (97, b"0"),
            (114, b"~"),
            (120, b"L"),
        ] {
            let flow = flow.clone().with(9, position, bytes);
            assert_eq!(flow.read(), refused(25, 9, 34), "{position}");
        }
    }
}

#[test]
fn number_25_among_the_records() {
    for flow in with_zero(9) {
        for (record, position, bytes, number) in [
            (1, 114, &b"L"[..], 6),
            (2, 34, b":", 5),
            (2, 34, ZERO, 25),
            (2, 120, b"L", 6),
            (8, 94, b"A", 6),
            (8, 50, b"\0", 2),
        ] {
            let flow = flow.clone().with(record, position, bytes);
            let due = refused(number, record as u64, position as u8);
            assert_eq!(flow.read(), due, "{record} {position}");
        }
        for (record, position, bytes) in [
            (10, 1, &b"\0"[..]),
            (10, 2, b"30"),
            (10, 4, b"0000001"),
            (15, 94, b"A"),
            (16, 46, b"0000003"),
            (16, 53, b":"),
            (16, 68, b":"),
            (16, 83, b"0000017"),
            (16, 114, b"L"),
        ] {
            let flow = flow.clone().with(record, position, bytes);
            assert_eq!(flow.read(), refused(25, 9, 34), "{record} {position}");
        }
        // The end of the flow comes after it, the length before.
        assert_eq!(read(&flow.bytes()[..960]), refused(4, 9, 0));
        assert_eq!(read(&flow.bytes()[..1_080]), refused(25, 9, 34));
        assert_eq!(read(&flow.bytes()[..1_200]), refused(25, 9, 34));
        assert_eq!(read(&flow.bytes()[..1_079]), refused(1, 0, 0));
    }
}

/// Counts, sums and other digits are no amounts.
#[test]
fn other_zeros_are_as_before() {
    let zeros = &[b'0'; 15];
    let flow = two_rents().with(16, 68, zeros);
    assert_eq!(flow.read(), accepted(2, 83_050, 16));
    assert_eq!(two_rents().with(16, 53, zeros).read(), refused(13, 16, 53));
    assert_eq!(
        two_recalls().with(16, 68, zeros).read(),
        refused(13, 16, 68)
    );
    assert_eq!(
        two_rents().with(16, 46, b"0000000").read(),
        refused(12, 16, 46)
    );
    assert_eq!(
        two_rents().with(16, 83, b"0000000").read(),
        refused(14, 16, 83)
    );
    assert_eq!(two_rents().with(9, 4, b"0000000").read(), refused(9, 9, 4));
    let cab = two_rents().with(2, 53, b"00000");
    assert_eq!(cab.read(), accepted(2, 83_050, 16));
    let mut abi = two_rents();
    for (record, position) in [(1, 9), (2, 48), (9, 48), (16, 9)] {
        abi = abi.with(record, position, b"00000");
    }
    assert_eq!(abi.read(), accepted(2, 83_050, 16));
    assert_eq!(all_types().with(3, 21, b"00000").read(), refused(6, 3, 21));
}

/// The list of the two rents with bytes put into the D of the first or of the
/// second.
fn list_with(rent: usize, position: usize, bytes: &[u8]) -> Vec<u8> {
    let mut list = two_rents_list();
    put_item(&mut list, rent, position, bytes);
    list
}

#[test]
fn writing_refuses_a_d_of_zero_at_its_record() {
    let mut out = vec![b'#'; 1_920];
    for letter in *b"HQ" {
        for (rent, record) in [(1, 2), (2, 9)] {
            let mut list = list_with(rent, 34, ZERO);
            list[0] = letter;
            let due = (refused(25, record, 34), 0);
            assert_eq!(write_flow(&list, &mut out), due);
            // Also where the list ends with that D, and EF may not stand.
            let end = 50 + 593 * (rent - 1) + 59;
            assert_eq!(write_flow(&list[..end], &mut out), due);
            for (position, bytes, number, first) in [
                (23, &b"290227"[..], 8, 23),
                (40, b" ", 5, 34),
                (46, b"\n", 2, 46),
                (113, b"\xff", 2, 113),
                (53, b":", 25, 34),
                (97, b"0", 25, 34),
            ] {
                let mut list = list.clone();
                put_item(&mut list, rent, position, bytes);
                let due = (refused(number, record, first), 0);
                assert_eq!(write_flow(&list, &mut out), due);
            }
            put_item(&mut list, rent, 34, ONE);
            assert_eq!(write_flow(&list, &mut vec![0; 1_920]).1, 1_920);
        }
    }
    assert!(out.iter().all(|&byte| byte == b'#'));
}

/// 20 and 21 come before 25, which comes before what follows.
#[test]
fn the_order_in_writing() {
    let mut out = vec![b'#'; 3_000];
    let list = list_with(1, 34, ZERO);
    let cut = &list[..list.len() - 1];
    assert_eq!(write_flow(cut, &mut out), (refused(20, 15, 0), 0));
    assert_eq!(write_flow(&list, &mut out[..1_919]), (refused(21, 0, 0), 0));
    assert_eq!(
        write_flow(&list, &mut out[..1_920]),
        (refused(25, 2, 34), 0)
    );
    let mut wrong_header = list.clone();
    wrong_header[1..6].fill(b' ');
    assert_eq!(write_flow(&wrong_header, &mut out), (refused(7, 1, 4), 0));
    // No header: the D may not stand there.
    assert_eq!(write_flow(&list[50..], &mut out), (refused(3, 1, 2), 0));
    let both = list_with(2, 92, b"AB124");
    assert_eq!(write_flow(&both, &mut out), (refused(11, 9, 92), 0));
    let mut both = list.clone();
    put_item(&mut both, 2, 92, b"AB124");
    assert_eq!(write_flow(&both, &mut out), (refused(25, 2, 34), 0));
    assert!(out.iter().all(|&byte| byte == b'#'));
}

/// A total above the limit is 17 after the reader's refusals, so after 25.
#[test]
fn number_25_before_17_in_writing() {
    let rent = &two_rents_list()[50..643];
    let of = |amounts: &[u64]| {
        let mut list = header_item();
        for cents in amounts {
            let mut rent = rent.to_vec();
            rent[7..20].copy_from_slice(format!("{cents:013}").as_bytes());
            list.extend(rent);
        }
        list
    };
    let mut amounts = vec![MAX; 101];
    let mut out = vec![b'#'; 120 * 716];
    assert_eq!(write_flow(&of(&amounts), &mut out), (refused(17, 0, 0), 0));
    amounts.push(0);
    let due = (refused(25, 2 + 7 * 101, 34), 0);
    assert_eq!(write_flow(&of(&amounts), &mut out), due);
    assert!(out.iter().all(|&byte| byte == b'#'));
}

#[test]
fn reading_back_and_finding_have_the_readers_25() {
    for record in [2, 9] {
        for flow in with_zero(record) {
            let flow = flow.bytes();
            let mut out = vec![b'#'; 1_300];
            let due = (refused(25, record as u64, 34), 0);
            assert_eq!(write_list(&flow, &mut out), due);
            assert_eq!(write_list(&flow, &mut []), due);
            assert!(out.iter().all(|&byte| byte == b'#'));
            assert!(!is_canonical(&flow));
            for k in [0, 1, 2, 3, u64::MAX] {
                assert_eq!(find(&flow, k), Err(refusal(25, record as u64, 34)));
            }
        }
    }
    let least = two_rents()
        .with(2, 34, ONE)
        .with(16, 53, b"000000000038051");
    assert_eq!(find(&least.bytes(), 1).unwrap().cents, 1);
}

#[test]
fn a_change_to_zero_is_16() {
    for (right, answer) in [
        (two_rents(), accepted as fn(u64, u64, u64) -> Answer),
        (two_recalls(), recalled),
    ] {
        let mut flow = right.bytes();
        for k in [1, 2] {
            assert_eq!(change(&mut flow, k, 0), refused(16, 0, 0));
        }
        for k in [0, 3, 4, 256, 257, (1 << 32) + 1, u64::MAX] {
            assert_eq!(change(&mut flow, k, 0), refused(15, 0, 0));
        }
        assert_eq!(flow, right.bytes());
        assert_eq!(change(&mut flow, 2, 1), answer(2, 45_001, 16));
        assert_eq!(&flow[993..1_006], ONE);
        assert_eq!(change(&mut flow, 1, 1), answer(2, 2, 16));
        assert_eq!(change(&mut flow, 1, 0), refused(16, 0, 0));
        assert_eq!(change(&mut flow, 1, 1), answer(2, 2, 16));
        assert_eq!(read(&flow), answer(2, 2, 16));
        assert_eq!(withdraw(&mut flow, 1), (answer(1, 1, 9), 1_080));
    }
}

/// Not even that very amount can be changed, nor its disposition withdrawn.
#[test]
fn a_flow_with_a_zero_is_not_amended() {
    for record in [2, 9] {
        for flow in with_zero(record) {
            let before = flow.bytes();
            let mut flow = before.clone();
            let due = refused(25, record as u64, 34);
            for k in [0, 1, 2, 3, u64::MAX] {
                for cents in [0, 1, 38_050, 45_000, MAX, MAX + 1, u64::MAX] {
                    assert_eq!(change(&mut flow, k, cents), due);
                }
                assert_eq!(withdraw(&mut flow, k), (due, 1_920));
            }
            assert_eq!(flow, before);
        }
    }
    let zeros = &[b'0'; 15];
    let mut flow = one_rent().with(2, 34, ZERO).with(9, 53, zeros).bytes();
    assert_eq!(change(&mut flow, 1, 45_000), refused(25, 2, 34));
    assert_eq!(withdraw(&mut flow, 1), (refused(25, 2, 34), 1_080));
}

#[test]
fn the_ledger_takes_no_zero() {
    let change = |k, cents| Call::Change { k, cents };
    for (list, answer) in [
        (two_rents_list(), accepted as fn(u64, u64, u64) -> Answer),
        (two_recalls_list(), recalled),
    ] {
        let mut ledger = Ledger::new(&list).unwrap();
        for (call, due) in [
            (change(1, 0), refused(16, 0, 0)),
            (change(2, 0), refused(16, 0, 0)),
            (change(0, 0), refused(15, 0, 0)),
            (change(3, 0), refused(15, 0, 0)),
            (change(u64::MAX, 0), refused(15, 0, 0)),
        ] {
            assert_eq!(ledger.call(call), (due, None), "{call:?}");
        }
        assert_eq!(ledger.list(), list);
        assert_eq!(ledger.call(change(1, 1)), (answer(2, 38_051, 16), None));
        let mut due = list.clone();
        put_item(&mut due, 1, 34, ONE);
        assert_eq!(ledger.list(), due);
        // A list with a zero is no accepted flow's, and has no ledger.
        for rent in [1, 2] {
            let mut zero = list.clone();
            put_item(&mut zero, rent, 34, ZERO);
            assert_eq!(Ledger::new(&zero), None);
        }
    }
}

/// 16 comes before 17, on the flow and on the ledger.
#[test]
fn a_change_to_zero_at_the_largest_total() {
    let mut records = vec![header()];
    for k in 1..=101 {
        let mut rent = first_rent(&format!("{k:07}"));
        let cents = if k == 101 { 99 } else { MAX };
        rent[0][33..46].copy_from_slice(format!("{cents:013}").as_bytes());
        records.extend(rent);
    }
    records.push(trailer("0000101", "999999999999999", "0000709"));
    let mut flow = Flow(records).bytes();
    let mut ledger = Ledger::new(&list_of(&flow)).unwrap();
    for (k, cents, due) in [
        (101, 100, refused(17, 0, 0)),
        (101, 0, refused(16, 0, 0)),
        (102, 0, refused(15, 0, 0)),
        (101, 1, accepted(101, 999_999_999_999_901, 709)),
        (1, 0, refused(16, 0, 0)),
    ] {
        assert_eq!(change(&mut flow, k, cents), due);
        assert_eq!(ledger.call(Call::Change { k, cents }), (due, None));
    }
}

#[test]
fn evenings_have_the_old_flows_25_then_the_new_flows() {
    let right = two_rents().bytes();
    let recalls = two_recalls().bytes();
    let wrong = two_rents().with(10, 4, b"0000001").bytes();
    let [first, first_recalls] = with_zero(2).map(|flow| flow.bytes());
    let [last, _] = with_zero(9).map(|flow| flow.bytes());
    let (at_2, at_9) = (refusal(25, 2, 34), refusal(25, 9, 34));
    for (old, new, due) in [
        (&first, &right, at_2),
        (&right, &first, at_2),
        (&last, &right, at_9),
        (&right, &last, at_9),
        (&first, &last, at_2),
        (&last, &first, at_9),
        (&first, &first, at_2),
        (&last, &wrong, at_9),
        (&wrong, &last, refusal(9, 10, 4)),
        (&first_recalls, &recalls, at_2),
        (&recalls, &first_recalls, at_2),
        // Before 28.
        (&first, &recalls, at_2),
        (&recalls, &first, at_2),
    ] {
        // Before 34, 21 and 15 too.
        for (work, room, n) in [(MIN_WORK, 600, 1), (0, 0, 0)] {
            let (mut memory, mut out) = (vec![5; work], vec![b'#'; room]);
            assert_eq!(compare(old, new, &mut memory, &mut out), Err(due));
            assert_eq!(line(old, new, &mut memory, n), Err(due));
            assert_eq!((memory, out), (vec![5; work], vec![b'#'; room]));
        }
    }
}

/// The amounts of the records 14 of a flow, as texts.
fn amounts(flow: &[u8]) -> Vec<&[u8]> {
    in_openings(flow, 34, 46)
}

/// Right flows have no amount of zero, and the least and the largest often.
#[test]
fn generated_flows_are_right() {
    let (mut all, mut least, mut largest) = (0, 0, 0);
    for (index, size) in (0..3_000).zip(
        [
            Size::Small,
            Size::Small,
            Size::Medium,
            Size::AllTypes,
            Size::Limit,
        ]
        .into_iter()
        .cycle(),
    ) {
        let flow = generate::draft(&mut Rng::for_case(81, index), size).flow();
        let answer = read(&flow);
        assert!(matches!(answer, Answer::Accepted { .. }), "{answer}");
        let amounts = amounts(&flow);
        assert!(amounts.iter().all(|&amount| amount != ZERO));
        if size != Size::Limit {
            all += amounts.len();
            least += amounts.iter().filter(|&&amount| amount == ONE).count();
            largest += amounts
                .iter()
                .filter(|&&amount| amount == [b'9'; 13])
                .count();
        }
    }
    assert!(least > all / 10 && largest > all / 20);
}

/// Totals at the limit and a little below come, and above it no flow is right.
#[test]
fn generated_totals_at_the_limit() {
    let mut totals: BTreeMap<u64, usize> = BTreeMap::new();
    for index in 0..400 {
        let flow = generate::draft(&mut Rng::for_case(82, index), Size::Limit).flow();
        let Answer::Accepted { cents, .. } = read(&flow) else {
            panic!("a draft is right");
        };
        *totals.entry(cents).or_default() += 1;
        let draft = generate::draft(&mut Rng::for_case(83, index), Size::AboveLimit);
        assert!(matches!(
            read(&draft.flow()),
            Answer::Refused { number: 13, .. }
        ));
        let list = draft.list();
        let mut out = vec![0; 120 * (items(&list).count() + 1)];
        assert_eq!(write_flow(&list, &mut out), (refused(17, 0, 0), 0));
    }
    assert!(totals[&999_999_999_999_999] > 100 && totals[&999_999_999_999_998] > 50);
    assert!(*totals.keys().next().unwrap() > 999_999_999_999_900);
}

/// Whether the trailer's total of the flow's kind is the sum of the amounts.
fn total_agrees(flow: &[u8]) -> bool {
    let sum: u64 = amounts(flow)
        .iter()
        .filter_map(|amount| std::str::from_utf8(amount).ok()?.parse::<u64>().ok())
        .sum();
    let trailer = &flow[flow.len() - 120..];
    let total = match flow.get(148..153) {
        Some(b"07100") => &trailer[67..82],
        _ => &trailer[52..67],
    };
    total == format!("{sum:015}").as_bytes()
}

/// Which of the records 14 of a refused flow has the zero that is told: the
/// first, the last or one between, of several.
fn place_of(flow: &[u8], record: u64) -> Option<&'static str> {
    let records: Vec<&[u8]> = flow.chunks(120).collect();
    let openings: Vec<usize> = (0..records.len())
        .filter(|&index| records[index].get(1..3) == Some(b"14"))
        .collect();
    let place = openings.iter().position(|&i| i as u64 + 1 == record)?;
    match (place, openings.len()) {
        (_, ..3) => None,
        (0, _) => Some("first"),
        (place, len) if place + 1 == len => Some("last"),
        _ => Some("middle"),
    }
}

#[test]
fn generated_flows_have_zeros_everywhere() {
    let mut met: BTreeMap<(bool, &str, bool), usize> = BTreeMap::new();
    let mut beside: BTreeMap<u8, usize> = BTreeMap::new();
    for index in 0..60_000 {
        let flow = generate::flow_case(84, index);
        if !amounts(&flow).contains(&ZERO) {
            continue;
        }
        let Answer::Refused { number, record, .. } = read(&flow) else {
            panic!("a flow with an amount of zero is refused");
        };
        *beside.entry(number).or_default() += 1;
        if let (25, Some(place)) = (number, place_of(&flow, record)) {
            let recalls = flow.get(148..153) == Some(b"07100");
            let key = (recalls, place, total_agrees(&flow));
            *met.entry(key).or_default() += 1;
        }
    }
    for recalls in [false, true] {
        for place in ["first", "middle", "last"] {
            for agrees in [false, true] {
                let count = met.get(&(recalls, place, agrees)).copied().unwrap_or(0);
                assert!(count >= 20, "{recalls} {place} {agrees}: {count}");
            }
        }
    }
    // Beside a zero there is what comes before it.
    for number in [2, 3, 5, 6, 8, 9, 22, 25] {
        let count = beside.get(&number).copied().unwrap_or(0);
        assert!(count >= 5, "{number}: {count}");
    }
}

#[test]
fn generated_lists_have_zeros_everywhere() {
    let mut met: BTreeMap<(bool, bool), usize> = BTreeMap::new();
    let mut other = 0;
    for index in 0..20_000 {
        let list = generate::list(&mut Rng::for_case(85, index));
        let zero = |body: &[u8]| body[6..19] == *ZERO;
        let openings = items(&list)
            .flatten()
            .filter(|item| item.layout.kind == b'D');
        if !openings.into_iter().any(|item| zero(item.body)) {
            continue;
        }
        let mut out = vec![b'#'; 120 * (items(&list).count() + 1)];
        match write_flow(&list, &mut out).0 {
            Answer::Refused {
                number: 25,
                record,
                position,
            } => {
                assert_eq!(position, 34);
                let key = (list[0] == b'Q', record == 2);
                *met.entry(key).or_default() += 1;
            }
            Answer::Refused { .. } => other += 1,
            Answer::Accepted { .. } => panic!("an amount of zero is written"),
        }
    }
    for recalls in [false, true] {
        for first in [false, true] {
            let count = met.get(&(recalls, first)).copied().unwrap_or(0);
            assert!(count >= 50, "{recalls} {first}: {count}");
        }
    }
    assert!(other >= 100, "{other}");
}

/// Changes to 0 come often, also of no disposition, and changes to 1.
#[test]
fn generated_changes_to_zero() {
    let (mut of_none, mut of_one, mut to_one) = (0, 0, 0);
    for index in 0..2_000 {
        let mut rng = Rng::for_case(86, index);
        for call in generate::calls(&mut rng, 5, 10) {
            match call {
                Call::Change { k, cents: 0 } if k == 0 || k > 5 => of_none += 1,
                Call::Change { cents: 0, .. } => of_one += 1,
                Call::Change { cents: 1, .. } => to_one += 1,
                _ => {}
            }
        }
    }
    assert!(of_none > 100 && of_one > 300 && to_one > 300);
}
