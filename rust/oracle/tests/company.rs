//! Company code on all requests or on none: document 02, E4. Every value due is
//! reasoned from the documents.

mod common;

use std::collections::BTreeMap;

use common::*;
use oracle::amend::{change, withdraw};
use oracle::evenings::{account, compare, line, Side, MIN_WORK};
use oracle::evenings_cases::pair_case;
use oracle::find::find;
use oracle::generate::{self, Size};
use oracle::ledger::{Call, Ledger};
use oracle::list::{is_canonical, items, write_flow, write_list};
use oracle::reader::read;
use oracle::rng::Rng;
use oracle::Answer;

const CODE: &[u8] = b"AB123";
const NONE: &[u8] = b"     ";

/// The two rents with these codes, as requests and as recalls.
fn two_with(first: &[u8], second: &[u8]) -> [Flow; 2] {
    [two_rents(), two_recalls()].map(|flow| flow.with(2, 92, first).with(9, 92, second))
}

/// Three rents with these codes.
fn three(recalls: bool, [first, second, third]: [&[u8]; 3]) -> Flow {
    let flow = three_rents(recalls).with(2, 92, first);
    flow.with(9, 92, second).with(16, 92, third)
}

/// The answer to a flow of requests or of recalls.
fn answer(recalls: bool, dispositions: u64, cents: u64, records: u64) -> Answer {
    match recalls {
        true => recalled(dispositions, cents, records),
        false => accepted(dispositions, cents, records),
    }
}

#[test]
fn a_code_on_one_of_two_is_11_at_the_second() {
    for (first, second) in [(NONE, CODE), (CODE, NONE)] {
        for flow in two_with(first, second) {
            assert_eq!(flow.read(), refused(11, 9, 92));
        }
    }
    for code in [CODE, NONE, b"A    ", b"    A", b"A   B", b"~~~~~", b"00000"] {
        let [requests, recalls] = two_with(code, code);
        assert_eq!(requests.read(), accepted(2, 83_050, 16));
        assert_eq!(recalls.read(), recalled(2, 83_050, 16));
    }
}

#[test]
fn the_first_of_three_that_differs() {
    let (c, n) = (CODE, NONE);
    for (codes, record) in [
        ([c, c, c], None),
        ([c, c, n], Some(16)),
        ([c, n, c], Some(9)),
        ([c, n, n], Some(9)),
        ([n, c, c], Some(9)),
        ([n, c, n], Some(9)),
        ([n, n, c], Some(16)),
        ([n, n, n], None),
        ([c, b"AB124", c], Some(9)),
        ([c, c, b"AB124"], Some(16)),
        ([c, b"AB124", b"AB124"], Some(9)),
        ([c, n, b"AB124"], Some(9)),
        ([n, c, b"AB124"], Some(9)),
        ([b"A    ", b"A    ", b"    A"], Some(16)),
    ] {
        for recalls in [false, true] {
            let due = match record {
                Some(record) => refused(11, record, 92),
                None => answer(recalls, 3, 128_050, 23),
            };
            assert_eq!(three(recalls, codes).read(), due, "{codes:?}");
        }
    }
}

#[test]
fn every_byte_counts() {
    for place in 0..5 {
        for byte in [b' ', b'!', b'/', b':', b'a', b'b', b'z', b'~'] {
            let mut other = *b"AB123";
            other[place] = byte;
            for (first, second) in [(CODE, &other[..]), (&other, CODE)] {
                for flow in two_with(first, second) {
                    assert_eq!(flow.read(), refused(11, 9, 92), "{place} {byte}");
                }
            }
            // One byte that is not blank, against blanks.
            let mut single = *b"     ";
            single[place] = byte;
            for (first, second) in [(NONE, &single[..]), (&single, NONE)] {
                let [requests, recalls] = two_with(first, second);
                let due = match byte {
                    b' ' => [accepted(2, 83_050, 16), recalled(2, 83_050, 16)],
                    _ => [refused(11, 9, 92), refused(11, 9, 92)],
                };
                assert_eq!([requests.read(), recalls.read()], due, "{place} {byte}");
            }
        }
    }
    for (first, second) in [
        (&b"AB123"[..], &b" AB12"[..]),
        (b"AB123", b"AB12 "),
        (b"AB123", b"ab123"),
        (b"A    ", b"    A"),
        (b" A   ", b"A    "),
        (b"A B  ", b"A  B "),
        (b"    0", b"00000"),
    ] {
        for flow in two_with(first, second) {
            assert_eq!(flow.read(), refused(11, 9, 92));
        }
    }
}

/// The first record 14 is what the others are held against, whatever it holds.
#[test]
fn the_first_14_never_differs() {
    for code in [CODE, NONE, b"    A", b"ZZZZZ", b"~ ~ ~"] {
        let flow = one_rent().with(2, 92, code);
        assert_eq!(flow.read(), accepted(1, 45_000, 9));
        assert_eq!(
            one_recall().with(2, 92, code).read(),
            recalled(1, 45_000, 9)
        );
        assert_eq!(read(&flow.bytes()[..240]), refused(4, 3, 0));
    }
    // Nor is it held against the head's 4-8.
    let head = two_rents().with(1, 4, b"XY999").with(16, 4, b"XY999");
    assert_eq!(head.read(), accepted(2, 83_050, 16));
}

/// What stands beside 92-96 is not compared.
#[test]
fn the_positions_around_it_are_free() {
    for (position, bytes) in [
        (1, &b"~"[..]),
        (11, b"FILLER"),
        (53, b"     "),
        (58, b"ANOTHER BANK"),
        (70, b"FILLER"),
        (91, b"~"),
        (97, b"9"),
        (97, b" "),
        (98, b"~"),
        (113, b"~"),
        (114, b"~"),
    ] {
        let flow = two_rents().with(9, position, bytes);
        assert_eq!(flow.read(), accepted(2, 83_050, 16), "{position}");
    }
}

#[test]
fn what_comes_before_11_in_its_record() {
    for (first, second) in [(NONE, CODE), (CODE, NONE), (CODE, b"AB124")] {
        for (flow, other) in two_with(first, second)
            .into_iter()
            .zip([b"07100", b"07000"])
        {
            for (position, bytes, number, at) in [
                (1, &b"\0"[..], 2, 1),
                (92, b"\x1f", 2, 92),
                (96, b"\x7f", 2, 96),
                (120, b"\xff", 2, 120),
                (2, b"41", 3, 2),
                (4, b"000000:", 5, 4),
                (4, b"0000001", 9, 4),
                (23, b"29022:", 5, 23),
                (23, b"290227", 8, 23),
                (29, b"07200", 6, 29),
                (29, other, 22, 29),
                (34, b" ", 5, 34),
                (34, b"0000000000000", 25, 34),
                (47, b" ", 6, 47),
                (48, b"0123:", 5, 48),
                (48, b"01235", 10, 48),
                (53, b":", 5, 53),
                (57, b" ", 5, 53),
            ] {
                let flow = flow.clone().with(9, position, bytes);
                assert_eq!(flow.read(), refused(number, 9, at), "{position}");
            }
        }
    }
}

#[test]
fn what_comes_after_11_in_its_record() {
    for (first, second) in [(NONE, CODE), (CODE, NONE), (CODE, b"AB124")] {
        for flow in two_with(first, second) {
            for (position, bytes) in [(97, b"0"), (97, b"A"), (120, b"L"), (120, b" ")] {
                let flow = flow.clone().with(9, position, bytes);
                assert_eq!(flow.read(), refused(11, 9, 92), "{position}");
            }
        }
    }
}

#[test]
fn number_11_among_the_records() {
    for flow in two_with(NONE, CODE) {
        for (record, position, bytes, number) in [
            (1, 114, &b"L"[..], 6),
            (2, 48, b"01235", 10),
            (2, 53, b":", 5),
            (2, 97, b"0", 6),
            (2, 120, b"L", 6),
            (8, 94, b"A", 6),
            (8, 50, b"\0", 2),
        ] {
            let flow = flow.clone().with(record, position, bytes);
            let due = refused(number, record as u64, position as u8);
            assert_eq!(flow.read(), due, "{record} {position}");
        }
        for (record, position, bytes) in [
            (10, 1, &b"\0"[..]),
            (10, 2, b"30"),
            (10, 4, b"0000001"),
            (15, 94, b"A"),
            (16, 46, b"0000003"),
            (16, 53, b":"),
            (16, 68, b":"),
            (16, 83, b"0000017"),
        ] {
            let flow = flow.clone().with(record, position, bytes);
            assert_eq!(flow.read(), refused(11, 9, 92), "{record} {position}");
        }
        // The end of the flow comes after it, the length before.
        assert_eq!(read(&flow.bytes()[..960]), refused(4, 9, 0));
        assert_eq!(read(&flow.bytes()[..1_080]), refused(11, 9, 92));
        assert_eq!(read(&flow.bytes()[..1_079]), refused(1, 0, 0));
    }
}

/// The list of the three rents with these codes.
fn list_of_three(letter: u8, codes: [&[u8]; 3]) -> Vec<u8> {
    let mut list = two_rents_list();
    let again = list[50..643].to_vec();
    list.extend(again);
    list[0] = letter;
    for (rent, code) in (1..).zip(codes) {
        put_item(&mut list, rent, 92, code);
    }
    list
}

#[test]
fn writing_refuses_the_first_d_that_differs() {
    let mut out = vec![b'#'; 2_760];
    let (c, n) = (CODE, NONE);
    for letter in *b"HQ" {
        for (codes, rent) in [
            ([n, c, c], 2),
            ([c, n, c], 2),
            ([c, n, n], 2),
            ([n, n, c], 3),
            ([c, c, n], 3),
            ([c, c, b"AB12 "], 3),
            ([c, b"aB123", c], 2),
        ] {
            let list = list_of_three(letter, codes);
            let record = 2 + 7 * (rent as u64 - 1);
            let due = (refused(11, record, 92), 0);
            assert_eq!(write_flow(&list, &mut out), due, "{codes:?}");
            // Also where the list ends with that D, and EF may not stand.
            let end = 50 + 593 * (rent - 1) + 59;
            assert_eq!(write_flow(&list[..end], &mut out), due, "{codes:?}");
            for (position, bytes, number, first) in [
                (23, &b"290227"[..], 8, 23),
                (34, b"0000000000000", 25, 34),
                (53, b":", 5, 53),
                (94, b"\n", 2, 94),
                (113, b"\xff", 2, 113),
                (97, b"0", 11, 92),
            ] {
                let mut list = list.clone();
                put_item(&mut list, rent, position, bytes);
                let due = (refused(number, record, first), 0);
                assert_eq!(write_flow(&list, &mut out), due, "{codes:?}");
            }
        }
    }
    assert!(out.iter().all(|&byte| byte == b'#'));
}

#[test]
fn writing_equal_codes() {
    for (letter, recalls) in [(b'H', false), (b'Q', true)] {
        for code in [CODE, NONE, b"    A", b"A   B"] {
            let list = list_of_three(letter, [code; 3]);
            let flow = three(recalls, [code; 3]).bytes();
            let mut out = vec![b'#'; 2_760];
            let due = (answer(recalls, 3, 128_050, 23), 2_760);
            assert_eq!(write_flow(&list, &mut out), due);
            assert_eq!(out, flow);
            assert_eq!(list_of(&flow), list);
            assert!(is_canonical(&flow));
        }
    }
}

/// 20 and 21 come before 11, which comes before 17.
#[test]
fn the_order_in_writing() {
    let mut out = vec![b'#'; 3_000];
    let mut list = two_rents_list();
    put_item(&mut list, 1, 92, NONE);
    let cut = &list[..list.len() - 1];
    assert_eq!(write_flow(cut, &mut out), (refused(20, 15, 0), 0));
    assert_eq!(write_flow(&list, &mut out[..1_919]), (refused(21, 0, 0), 0));
    assert_eq!(
        write_flow(&list, &mut out[..1_920]),
        (refused(11, 9, 92), 0)
    );
    let mut wrong_header = list.clone();
    wrong_header[1..6].fill(b' ');
    assert_eq!(write_flow(&wrong_header, &mut out), (refused(7, 1, 4), 0));
    // No header: the D may not stand there.
    assert_eq!(write_flow(&list[50..], &mut out), (refused(3, 1, 2), 0));
    assert!(out.iter().all(|&byte| byte == b'#'));

    let mut rent = two_rents_list()[50..643].to_vec();
    rent[7..20].copy_from_slice(b"9999999999999");
    let mut list = [header_item(), rent.repeat(101)].concat();
    let mut out = vec![b'#'; 120 * 709];
    assert_eq!(write_flow(&list, &mut out), (refused(17, 0, 0), 0));
    put_item(&mut list, 101, 92, NONE);
    let due = (refused(11, 2 + 7 * 100, 92), 0);
    assert_eq!(write_flow(&list, &mut out), due);
    assert!(out.iter().all(|&byte| byte == b'#'));
}

#[test]
fn reading_back_and_finding_have_the_readers_11() {
    for (first, second) in [(NONE, CODE), (CODE, NONE), (CODE, b"AB12 ")] {
        for flow in two_with(first, second) {
            let flow = flow.bytes();
            let mut out = vec![b'#'; 1_300];
            assert_eq!(write_list(&flow, &mut out), (refused(11, 9, 92), 0));
            assert_eq!(write_list(&flow, &mut []), (refused(11, 9, 92), 0));
            assert!(out.iter().all(|&byte| byte == b'#'));
            assert!(!is_canonical(&flow));
            for k in [0, 1, 2, 3, u64::MAX] {
                assert_eq!(find(&flow, k), Err(refusal(11, 9, 92)));
            }
        }
    }
    let flow = three(false, [NONE; 3]).bytes();
    let second = find(&flow, 2).unwrap();
    assert_eq!((second.first, second.records, second.cents), (9, 7, 38_050));
}

/// Not even a call that would leave equal codes is served.
#[test]
fn a_flow_with_mixed_codes_is_not_amended() {
    let (c, n) = (CODE, NONE);
    for (codes, record) in [
        ([n, c, c], 9),
        ([c, n, c], 9),
        ([c, c, n], 16),
        ([n, n, c], 16),
    ] {
        for recalls in [false, true] {
            let before = three(recalls, codes).bytes();
            let mut flow = before.clone();
            let due = refused(11, record, 92);
            for k in [0, 1, 2, 3, 4, u64::MAX] {
                for cents in [0, 1, 45_000, u64::MAX] {
                    assert_eq!(change(&mut flow, k, cents), due);
                }
                assert_eq!(withdraw(&mut flow, k), (due, 2_760));
            }
            assert_eq!(flow, before);
        }
    }
}

/// What a withdrawal leaves of the three rents, by the numbers of the rents kept.
fn left(recalls: bool, code: &[u8], kept: [usize; 2]) -> Vec<u8> {
    let mut records = vec![header()];
    for (number, rent) in ["0000001", "0000002"].into_iter().zip(kept) {
        let mut block = match rent {
            2 => second_rent(number),
            _ => first_rent(number),
        };
        block[0][91..96].copy_from_slice(code);
        records.extend(if recalls { recall(block) } else { block });
    }
    let total = match kept {
        [1, 3] => "000000000090000",
        _ => "000000000083050",
    };
    let end = if recalls { recall_trailer } else { trailer };
    records.push(end("0000002", total, "0000016"));
    records.concat()
}

#[test]
fn a_withdrawal_keeps_the_codes() {
    for recalls in [false, true] {
        for code in [CODE, NONE, b"    A"] {
            for (k, kept, cents) in [
                (1, [2, 3], 83_050),
                (2, [1, 3], 90_000),
                (3, [1, 2], 83_050),
            ] {
                let mut flow = three(recalls, [code; 3]).bytes();
                let mut ledger = Ledger::new(&list_of(&flow)).unwrap();
                let due = answer(recalls, 2, cents, 16);
                assert_eq!(withdraw(&mut flow, k), (due, 1_920));
                assert_eq!(ledger.call(Call::Withdraw { k }), (due, Some(1_920)));
                let (flow, freed) = flow.split_at_mut(1_920);
                assert_eq!(flow, left(recalls, code, kept));
                assert!(freed.iter().all(|&byte| byte == b' '));
                assert_eq!(read(flow), due);
                assert_eq!(list_of(flow), ledger.list());
                // And once more, by the first again.
                let last = if kept[1] == 2 { 38_050 } else { 45_000 };
                let due = answer(recalls, 1, last, 9);
                assert_eq!(withdraw(flow, 1), (due, 1_080));
                assert_eq!(flow[211..216], *code);
                assert_eq!(read(&flow[..1_080]), due);
                let flow = &mut flow[..1_080];
                assert_eq!(withdraw(flow, 1), (refused(18, 0, 0), 1_080));
                assert_eq!(change(flow, 1, 7), answer(recalls, 1, 7, 9));
                assert_eq!(flow[211..216], *code);
            }
        }
    }
}

#[test]
fn a_change_keeps_the_codes() {
    for recalls in [false, true] {
        for code in [CODE, NONE] {
            let right = three(recalls, [code; 3]);
            let mut flow = right.bytes();
            let due = answer(recalls, 3, 90_001, 23);
            assert_eq!(change(&mut flow, 2, 1), due);
            let place = if recalls { 68 } else { 53 };
            let changed = right
                .with(9, 34, b"0000000000001")
                .with(23, place, b"000000000090001");
            assert_eq!(flow, changed.bytes());
            assert_eq!(read(&flow), due);
        }
    }
}

/// Demand 3: calls in a mixture, refused ones too, on coded and on blank flows.
#[test]
fn calls_in_a_mixture() {
    let change_of = |k, cents| Call::Change { k, cents };
    let withdrawal = |k| Call::Withdraw { k };
    for recalls in [false, true] {
        let answer = |count, cents, records| answer(recalls, count, cents, records);
        for code in [CODE, NONE, b"A   B"] {
            let mut memory = three(recalls, [code; 3]).bytes();
            let mut len = memory.len();
            let mut ledger = Ledger::new(&list_of(&memory)).unwrap();
            for (call, due, due_len) in [
                (withdrawal(0), refused(15, 0, 0), 2_760),
                (change_of(1, 0), refused(16, 0, 0), 2_760),
                (change_of(3, 100), answer(3, 83_150, 23), 2_760),
                (withdrawal(1), answer(2, 38_150, 16), 1_920),
                (change_of(3, 5), refused(15, 0, 0), 1_920),
                (change_of(1, 1), answer(2, 101, 16), 1_920),
                (withdrawal(3), refused(15, 0, 0), 1_920),
                (withdrawal(1), answer(1, 100, 9), 1_080),
                (withdrawal(1), refused(18, 0, 0), 1_080),
                (
                    change_of(1, 9_999_999_999_999),
                    answer(1, 9_999_999_999_999, 9),
                    1_080,
                ),
            ] {
                let (given, left) = match call {
                    Call::Change { k, cents } => (change(&mut memory[..len], k, cents), len),
                    Call::Withdraw { k } => withdraw(&mut memory[..len], k),
                };
                assert_eq!((given, left), (due, due_len), "{call:?}");
                len = left;
                assert_eq!(ledger.call(call).0, due, "{call:?}");
                let flow = &memory[..len];
                assert_eq!(list_of(flow), ledger.list());
                assert_eq!(read(flow), Answer::from(ledger.numbers()));
                let mut written = vec![0; len];
                assert_eq!(write_flow(&ledger.list(), &mut written).1, len);
                assert_eq!(written, flow);
                assert!(codes(flow).iter().all(|c| *c == code));
            }
        }
    }
}

#[test]
fn evenings_have_the_old_flows_11_then_the_new_flows() {
    let right = two_rents().bytes();
    let recalls = two_recalls().bytes();
    let wrong = two_rents().with(10, 4, b"0000001").bytes();
    let [mixed, mixed_recalls] = two_with(NONE, CODE).map(|flow| flow.bytes());
    let last = three(false, [CODE, CODE, NONE]).bytes();
    let (at_9, at_16) = (refusal(11, 9, 92), refusal(11, 16, 92));
    for (old, new, due) in [
        (&mixed, &right, at_9),
        (&right, &mixed, at_9),
        (&last, &mixed, at_16),
        (&mixed, &last, at_9),
        (&mixed, &mixed, at_9),
        (&mixed, &wrong, at_9),
        (&wrong, &mixed, refusal(9, 10, 4)),
        (&mixed_recalls, &recalls, at_9),
        (&recalls, &mixed_recalls, at_9),
        // Before 28.
        (&mixed, &recalls, at_9),
        (&recalls, &mixed, at_9),
    ] {
        // Before 34, 21 and 15 too.
        for (work, room, n) in [(MIN_WORK, 600, 1), (0, 0, 0)] {
            let (mut memory, mut out) = (vec![5; work], vec![b'#'; room]);
            assert_eq!(compare(old, new, &mut memory, &mut out), Err(due));
            assert_eq!(line(old, new, &mut memory, n), Err(due));
            assert_eq!((memory, out), (vec![5; work], vec![b'#'; room]));
        }
    }
}

/// The code is carried: with another one in all, no request is the same.
#[test]
fn evenings_with_another_code() {
    for recalls in [false, true] {
        for (first, second) in [
            (CODE, NONE),
            (NONE, CODE),
            (CODE, b"AB12 "),
            (CODE, b"aB123"),
        ] {
            let old = three(recalls, [first; 3]).bytes();
            let new = three(recalls, [second; 3]).bytes();
            assert_eq!(account(&old, &new).unwrap(), b"DDDAAA");
            assert_eq!(account(&new, &new).unwrap(), b"KKK");
            for (n, letter, side, record) in [
                (1, b'D', Side::Old, 2),
                (3, b'D', Side::Old, 16),
                (4, b'A', Side::New, 2),
                (6, b'A', Side::New, 16),
            ] {
                let mut work = vec![5; MIN_WORK];
                let found = line(&old, &new, &mut work, n).unwrap();
                let due = (letter, side, record);
                assert_eq!((found.letter, found.side, found.record), due);
                let code = if side == Side::Old { first } else { second };
                assert_eq!(found.part[91..96], *code);
            }
        }
    }
}

/// The codes of the records 14 of a flow.
fn codes(flow: &[u8]) -> Vec<&[u8]> {
    in_openings(flow, 92, 96)
}

/// Right flows have one code on all records 14, or none on all; both come often,
/// and codes with blanks in them too.
#[test]
fn generated_flows_are_right() {
    let mut met: BTreeMap<Vec<u8>, usize> = BTreeMap::new();
    for index in 0..3_000 {
        let flow = generate::draft(&mut Rng::for_case(91, index), Size::Small).flow();
        let answer = read(&flow);
        assert!(matches!(answer, Answer::Accepted { .. }), "{answer}");
        let codes = codes(&flow);
        assert!(codes.iter().all(|code| *code == codes[0]));
        *met.entry(codes[0].to_vec()).or_default() += usize::from(codes.len() > 1);
    }
    assert!(met[NONE] > 500 && met[CODE] > 200);
    for code in [&b"A    "[..], b"    A", b"A   B", b"Q7 XZ"] {
        assert!(met[code] > 50);
    }
}

/// How the first code that differs does so.
fn way(first: &[u8], other: &[u8]) -> &'static str {
    let differ = first.iter().zip(other).filter(|(a, b)| a != b).count();
    match (first == NONE, other == NONE) {
        (true, _) => "blanks first",
        (_, true) => "a code first",
        _ if first.eq_ignore_ascii_case(other) => "case",
        _ if first[..4] == other[1..] || first[1..] == other[..4] => "moved",
        _ if differ == 1 => "one byte",
        _ => "other",
    }
}

/// A flow is refused if codes differ, and 11 names the first that does; it comes
/// at the second, inside and at the last, in every way and in every byte.
#[test]
fn generated_flows_differ_everywhere() {
    let mut met: BTreeMap<(bool, &str), usize> = BTreeMap::new();
    let mut ways: BTreeMap<&str, usize> = BTreeMap::new();
    let mut bytes = [0; 5];
    let mut beside: BTreeMap<u8, usize> = BTreeMap::new();
    let mut same_record: BTreeMap<u8, usize> = BTreeMap::new();
    for index in 0..60_000 {
        let flow = generate::flow_case(92, index);
        let codes = codes(&flow);
        let Some(differs) = codes.iter().position(|code| *code != codes[0]) else {
            assert!(!matches!(read(&flow), Answer::Refused { number: 11, .. }));
            continue;
        };
        let answer = read(&flow);
        let Answer::Refused {
            number,
            record,
            position,
        } = answer
        else {
            panic!("a flow with codes that differ is refused");
        };
        *beside.entry(number).or_default() += 1;
        let openings: Vec<usize> = (1..)
            .zip(flow.chunks(120))
            .filter(|(_, record)| record.len() == 120 && record[1..3] == *b"14")
            .map(|(number, _)| number)
            .collect();
        let at = openings[differs];
        if number != 11 {
            if record == at as u64 {
                *same_record.entry(position).or_default() += 1;
            }
            continue;
        }
        assert_eq!((record, position), (at as u64, 92));
        // What comes after 11 in its record.
        let opening = &flow[120 * at - 120..120 * at];
        let wrong_97 = !b" 1234569".contains(&opening[96]);
        *same_record.entry(97).or_default() += usize::from(wrong_97);
        *same_record.entry(120).or_default() += usize::from(opening[119] != b'E');
        let place = match (differs, openings.len()) {
            (place, len) if place + 1 == len => "last",
            (1, _) => "second",
            _ => "inside",
        };
        let recalls = flow.get(148..153) == Some(b"07100");
        *met.entry((recalls, place)).or_default() += 1;
        let way = way(codes[0], codes[differs]);
        *ways.entry(way).or_default() += 1;
        if way == "one byte" {
            let place = (0..5).find(|&i| codes[0][i] != codes[differs][i]);
            bytes[place.unwrap()] += 1;
        }
    }
    for recalls in [false, true] {
        for place in ["second", "inside", "last"] {
            let count = met.get(&(recalls, place)).copied().unwrap_or(0);
            assert!(count >= 50, "{recalls} {place}: {count}");
        }
    }
    for way in ["blanks first", "a code first", "case", "moved", "one byte"] {
        let count = ways.get(way).copied().unwrap_or(0);
        assert!(count >= 20, "{way}: {count}");
    }
    assert!(bytes.iter().all(|&count| count >= 10), "{bytes:?}");
    for position in [4, 23, 29, 34, 47, 48, 53, 97, 120] {
        let count = same_record.get(&position).copied().unwrap_or(0);
        assert!(count >= 5, "{position}: {count}");
    }
    // Beside codes that differ there is what comes before.
    for number in [2, 3, 5, 6, 8, 9, 10, 22, 25] {
        let count = beside.get(&number).copied().unwrap_or(0);
        assert!(count >= 5, "{number}: {count}");
    }
}

/// Lists meet 11 at the second, at an inner and at the last D, under H and Q.
#[test]
fn generated_lists_differ_everywhere() {
    let mut met: BTreeMap<(bool, &str), usize> = BTreeMap::new();
    let mut other = 0;
    for index in 0..30_000 {
        let list = generate::list(&mut Rng::for_case(93, index));
        let all: Vec<_> = items(&list).collect();
        let mut out = vec![b'#'; 120 * (all.len() + 1)];
        let answer = write_flow(&list, &mut out).0;
        // The number of an item is that of its record.
        let openings: Vec<(u64, &[u8])> = (1..)
            .zip(all.iter().flatten())
            .filter(|(_, item)| item.layout.kind == b'D')
            .map(|(number, item)| (number, &item.body[36..41]))
            .collect();
        let differs = openings.iter().position(|(_, code)| *code != openings[0].1);
        match (answer, differs) {
            (
                Answer::Refused {
                    number: 11,
                    record,
                    position,
                },
                Some(place),
            ) => {
                assert_eq!((record, position), (openings[place].0, 92));
                let place = match place {
                    place if place + 1 == openings.len() => "last",
                    1 => "second",
                    _ => "inside",
                };
                *met.entry((list[0] == b'Q', place)).or_default() += 1;
            }
            (Answer::Refused { number, .. }, _) => {
                assert_ne!(number, 11);
                other += usize::from(differs.is_some());
            }
            (Answer::Accepted { .. }, differs) => assert_eq!(differs, None),
        }
    }
    for recalls in [false, true] {
        for place in ["second", "inside", "last"] {
            let count = met.get(&(recalls, place)).copied().unwrap_or(0);
            assert!(count >= 50, "{recalls} {place}: {count}");
        }
    }
    assert!(other >= 100, "{other}");
}

/// Every call that can give 11 meets it in generated cases, of both kinds.
#[test]
fn every_call_meets_11() {
    let mut met: BTreeMap<(&str, bool), usize> = BTreeMap::new();
    let mut count = |call, recalls, number| {
        *met.entry((call, recalls)).or_default() += usize::from(number == 11);
    };
    let number = |answer: Answer| match answer {
        Answer::Refused { number, .. } => number,
        Answer::Accepted { .. } => 0,
    };
    for index in 0..6_000 {
        let mut rng = Rng::for_case(94, index);
        let mut flow = generate::flow_to_amend(&mut rng);
        let recalls = flow.get(148..153) == Some(b"07100");
        let k = generate::disposition_number(&mut rng, 3);
        let mut out = vec![0; flow.len()];
        count("reading", recalls, number(read(&flow)));
        let back = write_list(&flow, &mut out).0;
        count("reading back", recalls, number(back));
        count(
            "finding",
            recalls,
            find(&flow, k).map_or_else(|r| r.number, |_| 0),
        );
        let cents = generate::new_amount(&mut rng);
        count("changing", recalls, number(change(&mut flow, k, cents)));
        count("withdrawing", recalls, number(withdraw(&mut flow, k).0));
        let list = generate::list(&mut rng);
        let mut out = vec![0; 120 * (items(&list).count() + 1)];
        let written = write_flow(&list, &mut out).0;
        count("writing", list.first() == Some(&b'Q'), number(written));
    }
    for index in 0..4_000 {
        let pair = pair_case(95, index, 6);
        let recalls = pair.old.get(148..153) == Some(b"07100");
        let mut work = vec![0; MIN_WORK];
        let asked = line(&pair.old, &pair.new, &mut work, 1);
        let asked = asked.map_or_else(|refusal| refusal.number, |_| 0);
        count("a line", recalls, asked);
        let done = compare(&pair.old, &pair.new, &mut work, &mut [0; 600]);
        let done = done.map_or_else(|refusal| refusal.number, |_| 0);
        count("comparing", recalls, done);
    }
    assert_eq!(met.len(), 16);
    for ((call, recalls), count) in met {
        assert!(count >= 30, "{call} {recalls}: {count}");
    }
}
