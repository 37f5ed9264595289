//! Recalls of requests already sent: document 02, E1, with document 003,
//! section 3. Every value due is reasoned from these.

mod common;

use common::*;
use oracle::amend::{change, withdraw};
use oracle::find::{find, Disposition};
use oracle::generate;
use oracle::list::{is_canonical, items, write_flow, write_list};
use oracle::reader::read;
use oracle::rng::Rng;
use oracle::{samples, Answer, FlowKind};

/// EF whole: that of document 01's example with the total at 68-82.
const TRAILER: &str = " EFAB12301234150326RENT-MARCH                \
    0000002000000000000000000000000083050\
    0000016                        E      ";

#[test]
fn the_example_as_recalls_both_ways() {
    assert_eq!(two_recalls().read(), recalled(2, 83_050, 16));
    assert!(is_canonical(&two_recalls().bytes()));
    assert_eq!(TRAILER.len(), 120);
    let mut out = vec![b'#'; 2_000];
    let answer = write_flow(&two_recalls_list(), &mut out);
    assert_eq!(answer, (recalled(2, 83_050, 16), 1_920));
    assert_eq!(&out[1_800..1_920], TRAILER.as_bytes());
    assert_eq!(&out[..1_920], two_recalls().bytes());
    assert_eq!(&out[1_920..], [b'#'; 80]);
    let mut list = vec![b'#'; 1_300];
    let answer = write_list(&two_recalls().bytes(), &mut list);
    assert_eq!(answer, (recalled(2, 83_050, 16), 1_236));
    assert_eq!(&list[..1_236], two_recalls_list());
    assert_eq!(&list[1_236..], [b'#'; 64]);
}

#[test]
fn the_sample_is_the_example() {
    for (file, due) in [
        ("two-rents-recall.flow", two_recalls().bytes()),
        ("two-rents-recall.list", two_recalls_list()),
    ] {
        let all = samples::samples();
        let sample = all.iter().find(|sample| sample.file == file).unwrap();
        assert_eq!(sample.bytes, due);
    }
}

#[test]
fn the_text_ends_with_the_kind() {
    let text = accepted(2, 83_050, 16).to_string();
    let due = "accepted dispositions 2 cents 83050 records 16 kind requests";
    assert_eq!(text, due);
    let text = recalled(2, 83_050, 16).to_string();
    let due = "accepted dispositions 2 cents 83050 records 16 kind recalls";
    assert_eq!(text, due);
    assert_eq!(
        refused(22, 9, 29).to_string(),
        "refused 22 record 9 position 29"
    );
    assert_eq!(FlowKind::Requests.to_string(), "requests");
    assert_eq!(FlowKind::Recalls.to_string(), "recalls");
}

#[test]
fn an_amount_changed_touches_68_to_82() {
    let mut flow = two_recalls().bytes();
    assert_eq!(change(&mut flow, 2, 40_000), recalled(2, 85_000, 16));
    let due = two_recalls()
        .with(9, 34, b"0000000040000")
        .with(16, 68, b"000000000085000");
    assert_eq!(flow, due.bytes());
    assert_eq!(&flow[1_852..1_882], b"000000000000000000000000085000");
    assert_eq!(read(&flow), recalled(2, 85_000, 16));
}

#[test]
fn a_withdrawal_touches_68_to_82() {
    let mut flow = two_recalls().bytes();
    assert_eq!(withdraw(&mut flow, 1), (recalled(1, 38_050, 9), 1_080));
    let mut due = vec![header()];
    due.extend(recall(second_rent("0000001")));
    due.push(recall_trailer("0000001", "000000000038050", "0000009"));
    assert_eq!(&flow[..1_080], due.concat());
    assert_eq!(&flow[1_080..], [b' '; 840]);
    assert_eq!(withdraw(&mut flow[..1_080], 1), (refused(18, 0, 0), 1_080));
    let mut flow = two_recalls().bytes();
    assert_eq!(withdraw(&mut flow, 2), (recalled(1, 45_000, 9), 1_080));
    assert_eq!(&flow[..1_080], one_recall().bytes());
}

#[test]
fn refused_amendments_of_recalls() {
    let mut flow = two_recalls().bytes();
    for k in [0, 3, u64::MAX] {
        assert_eq!(change(&mut flow, k, u64::MAX), refused(15, 0, 0));
        assert_eq!(withdraw(&mut flow, k), (refused(15, 0, 0), 1_920));
    }
    assert_eq!(change(&mut flow, 1, 10_000_000_000_000), refused(16, 0, 0));
    assert_eq!(flow, two_recalls().bytes());
    // The reader's refusal of a flow of both kinds comes first.
    let mut mixed = two_rents().with(9, 29, b"07100").with(9, 47, b"+").bytes();
    let before = mixed.clone();
    assert_eq!(change(&mut mixed, 3, 0), refused(22, 9, 29));
    assert_eq!(withdraw(&mut mixed, 2), (refused(22, 9, 29), 1_920));
    assert_eq!(mixed, before);
}

#[test]
fn where_a_recall_is() {
    let second = Disposition {
        first: 14,
        records: 7,
        cents: 38_050,
        bytes: 1_560..2_400,
    };
    let flow = all_types_recalled().bytes();
    assert_eq!(read(&flow), recalled(2, 83_050, 21));
    assert_eq!(find(&flow, 2), Ok(second));
    assert_eq!(find(&flow, 3), Err(refusal(15, 0, 0)));
    let mixed = two_recalls().with(9, 29, b"07000").bytes();
    assert_eq!(find(&mixed, 1), Err(refusal(22, 9, 29)));
}

/// The keys at 101-120 of record 70 may differ from the request's (document
/// 003, section 3, b).
#[test]
fn a_recall_has_keys_of_its_own() {
    let flow = two_recalls().with(8, 101, b"12345678901234567890");
    assert_eq!(flow.read(), recalled(2, 83_050, 16));
    assert!(is_canonical(&flow.bytes()));
}

#[test]
fn number_6_a_causale_of_neither_kind() {
    for causale in [
        b"07200", b"07001", b"07101", b"07010", b"17000", b"17100", b"00000", b"07006", b"07008",
        b"07011", b"7000 ", b" 7100", b"0700O", b"O7100", b"     ", b"07 00",
    ] {
        for record in [2, 9] {
            let due = refused(6, record as u64, 29);
            assert_eq!(two_rents().with(record, 29, causale).read(), due);
            assert_eq!(two_recalls().with(record, 29, causale).read(), due);
        }
    }
}

#[test]
fn number_6_a_sign_of_the_other_kind() {
    for record in [2, 9] {
        let due = refused(6, record as u64, 47);
        for sign in [b"+", b" ", b"*", b"0", b","] {
            assert_eq!(two_rents().with(record, 47, sign).read(), due);
        }
        for sign in [b"-", b" ", b"*", b"0", b","] {
            assert_eq!(two_recalls().with(record, 47, sign).read(), due);
        }
    }
}

/// Three rents of these kinds: a request for `-`, a recall for `+`. The
/// trailer is that of the first one's kind.
fn three(kinds: &str) -> Flow {
    let numbers = ["0000001", "0000002", "0000003"];
    let mut records = vec![header()];
    for (number, kind) in numbers.into_iter().zip(kinds.chars()) {
        let rent = first_rent(number);
        records.extend(if kind == '+' { recall(rent) } else { rent });
    }
    let end = match kinds.starts_with('+') {
        true => recall_trailer,
        false => trailer,
    };
    records.push(end("0000003", "000000000135000", "0000023"));
    Flow(records)
}

#[test]
fn number_22_the_first_14_decides() {
    for (kinds, due) in [
        ("---", accepted(3, 135_000, 23)),
        ("+++", recalled(3, 135_000, 23)),
        ("-+-", refused(22, 9, 29)),
        ("-++", refused(22, 9, 29)),
        ("--+", refused(22, 16, 29)),
        ("+-+", refused(22, 9, 29)),
        ("+--", refused(22, 9, 29)),
        ("++-", refused(22, 16, 29)),
    ] {
        assert_eq!(three(kinds).read(), due, "{kinds}");
        // No trailer makes it right.
        for (negative, positive) in [(b"45000", b"90000"), (b"90000", b"45000")] {
            let flow = three(kinds).with(23, 63, negative).with(23, 78, positive);
            if let Answer::Refused { number: 22, .. } = due {
                assert_eq!(flow.read(), due, "{kinds}");
            }
        }
    }
}

/// The answer to a flow with these bytes in record 14 number `record`:
/// causale, first byte of the amount, sign.
fn with_14(flow: Flow, record: usize, causale: &[u8], amount: &[u8], sign: &[u8]) -> Answer {
    flow.with(record, 29, causale)
        .with(record, 34, amount)
        .with(record, 47, sign)
        .read()
}

/// The order of 6 and 22 at 29, 5 at 34 and 6 at 47 in the second 14: own and
/// other are the flow's kind and the other one.
#[test]
fn the_order_in_a_later_14() {
    for (flow, right, own, other) in [
        (
            two_rents(),
            accepted(2, 83_050, 16),
            (b"07000", b"-"),
            (b"07100", b"+"),
        ),
        (
            two_recalls(),
            recalled(2, 83_050, 16),
            (b"07100", b"+"),
            (b"07000", b"-"),
        ),
    ] {
        let neither = (b"07200", b" ");
        let causale_22 = refused(22, 9, 29);
        let causale_6 = refused(6, 9, 29);
        let amount_5 = refused(5, 9, 34);
        let sign_6 = refused(6, 9, 47);
        for (causale, amount, sign, due) in [
            (own.0, b"0", own.1, right),
            (own.0, b"0", other.1, sign_6),
            (own.0, b"0", neither.1, sign_6),
            (own.0, b":", own.1, amount_5),
            (own.0, b":", other.1, amount_5),
            (own.0, b":", neither.1, amount_5),
            (other.0, b"0", own.1, causale_22),
            (other.0, b"0", other.1, causale_22),
            (other.0, b"0", neither.1, causale_22),
            (other.0, b":", own.1, causale_22),
            (other.0, b":", other.1, causale_22),
            (other.0, b":", neither.1, causale_22),
            (neither.0, b"0", own.1, causale_6),
            (neither.0, b"0", other.1, causale_6),
            (neither.0, b"0", neither.1, causale_6),
            (neither.0, b":", own.1, causale_6),
            (neither.0, b":", other.1, causale_6),
            (neither.0, b":", neither.1, causale_6),
        ] {
            let given = with_14(flow.clone(), 9, causale, amount, sign);
            assert_eq!(given, due, "{causale:?} {amount:?} {sign:?}");
        }
    }
}

/// The same in the only 14 of a flow, which decides the kind: with causale and
/// sign of the other kind the trailer's totals are wrong, from 53 on.
#[test]
fn the_order_in_the_first_14() {
    for (flow, right, own, other) in [
        (
            one_rent(),
            accepted(1, 45_000, 9),
            (b"07000", b"-"),
            (b"07100", b"+"),
        ),
        (
            one_recall(),
            recalled(1, 45_000, 9),
            (b"07100", b"+"),
            (b"07000", b"-"),
        ),
    ] {
        let causale_6 = refused(6, 2, 29);
        let amount_5 = refused(5, 2, 34);
        let sign_6 = refused(6, 2, 47);
        let total_13 = refused(13, 9, 53);
        for (causale, amount, sign, due) in [
            (own.0, b"0", own.1, right),
            (own.0, b"0", other.1, sign_6),
            (own.0, b":", other.1, amount_5),
            (other.0, b"0", own.1, sign_6),
            (other.0, b"0", other.1, total_13),
            (other.0, b"0", b" ", sign_6),
            (other.0, b":", own.1, amount_5),
            (other.0, b":", other.1, amount_5),
            (b"07200", b"0", own.1, causale_6),
            (b"07200", b"0", other.1, causale_6),
            (b"07200", b":", b" ", causale_6),
        ] {
            let given = with_14(flow.clone(), 2, causale, amount, sign);
            assert_eq!(given, due, "{causale:?} {amount:?} {sign:?}");
        }
    }
}

/// What comes before 22 in its own record, and what comes after it.
#[test]
fn number_22_among_the_faults_of_a_record() {
    let of_both_kinds = [
        two_rents().with(9, 29, b"07100").with(9, 47, b"+"),
        two_recalls().with(9, 29, b"07000").with(9, 47, b"-"),
    ];
    for flow in of_both_kinds {
        for (position, bytes, number, first) in [
            (120, &b"\x7f"[..], 2, 120),
            (30, b"\0", 2, 30),
            (2, b"41", 3, 2),
            (4, b"000000:", 5, 4),
            (4, b"0000003", 9, 4),
            (23, b"29022:", 5, 23),
            (23, b"290227", 8, 23),
        ] {
            let flow = flow.clone().with(9, position, bytes);
            assert_eq!(flow.read(), refused(number, 9, first), "{position}");
        }
        for (position, bytes) in [
            (34, &b":"[..]),
            (47, b" "),
            (48, b"0123:"),
            (48, b"01235"),
            (53, b":"),
            (92, b"AB124"),
            (97, b"0"),
            (120, b"L"),
        ] {
            let flow = flow.clone().with(9, position, bytes);
            assert_eq!(flow.read(), refused(22, 9, 29), "{position}");
        }
        let earlier = flow.clone().with(8, 94, b"A");
        assert_eq!(earlier.read(), refused(6, 8, 94));
        let later = flow.clone().with(10, 1, b"\0");
        assert_eq!(later.read(), refused(22, 9, 29));
        assert_eq!(read(&flow.bytes()[..1_080]), refused(22, 9, 29));
        assert_eq!(read(&flow.bytes()[..1_079]), refused(1, 0, 0));
        assert_eq!(read(&flow.bytes()[..960]), refused(4, 9, 0));
    }
}

const SUM: &[u8] = b"000000000083050";
const ZEROS: &[u8] = b"000000000000000";
const OFF: &[u8] = b"000000000083051";
const NO_DIGITS: &[u8] = b"00000000008305:";
const BLANKS: &[u8] = b"               ";

/// 53-67, 68-82, then number and position due as requests and as recalls; 0 is
/// accepted.
type Totals = (&'static [u8], &'static [u8], [(u8, u8); 2]);

#[rustfmt::skip]
const TOTALS: [Totals; 20] = [
    (SUM, SUM, [(13, 68), (13, 53)]),
    (SUM, ZEROS, [(0, 0), (13, 53)]),
    (SUM, OFF, [(13, 68), (13, 53)]),
    (SUM, NO_DIGITS, [(5, 68), (13, 53)]),
    (SUM, BLANKS, [(5, 68), (13, 53)]),
    (ZEROS, SUM, [(13, 53), (0, 0)]),
    (ZEROS, ZEROS, [(13, 53), (13, 68)]),
    (ZEROS, OFF, [(13, 53), (13, 68)]),
    (ZEROS, NO_DIGITS, [(13, 53), (5, 68)]),
    (ZEROS, BLANKS, [(13, 53), (5, 68)]),
    (OFF, SUM, [(13, 53), (13, 53)]),
    (OFF, ZEROS, [(13, 53), (13, 53)]),
    (OFF, OFF, [(13, 53), (13, 53)]),
    (OFF, NO_DIGITS, [(13, 53), (13, 53)]),
    (OFF, BLANKS, [(13, 53), (13, 53)]),
    (NO_DIGITS, SUM, [(5, 53), (5, 53)]),
    (NO_DIGITS, ZEROS, [(5, 53), (5, 53)]),
    (NO_DIGITS, OFF, [(5, 53), (5, 53)]),
    (BLANKS, ZEROS, [(5, 53), (5, 53)]),
    (BLANKS, NO_DIGITS, [(5, 53), (5, 53)]),
];

#[test]
fn numbers_5_and_13_of_the_totals_by_kind() {
    let flows = [
        (two_rents(), accepted(2, 83_050, 16)),
        (two_recalls(), recalled(2, 83_050, 16)),
    ];
    for (negative, positive, due) in TOTALS {
        for ((flow, right), (number, position)) in flows.iter().zip(due) {
            let flow = flow.clone().with(16, 53, negative).with(16, 68, positive);
            let due = match number {
                0 => *right,
                _ => refused(number, 16, position),
            };
            assert_eq!(flow.read(), due, "{negative:?} {positive:?}");
            // 46 comes before the totals, 83 after them.
            let counts = flow.clone().with(16, 46, b"0000003");
            assert_eq!(counts.read(), refused(12, 16, 46));
            let records = flow.with(16, 83, b"0000017").read();
            let due = match number {
                0 => refused(14, 16, 83),
                _ => refused(number, 16, position),
            };
            assert_eq!(records, due);
        }
    }
}

/// With an amount of zero, under totals of zeros, neither kind is accepted
/// (document 02, E5).
#[test]
fn recalls_of_nothing() {
    let zero = b"0000000000000";
    let flow = one_rent().with(2, 34, zero).with(9, 53, ZEROS);
    assert_eq!(flow.read(), refused(25, 2, 34));
    let flow = one_recall().with(2, 34, zero).with(9, 68, ZEROS);
    assert_eq!(flow.read(), refused(25, 2, 34));
}

const MAX: u64 = 9_999_999_999_999;

/// Recalls of these amounts, with the texts given as totals.
fn many(amounts: &[u64], negative: &str, positive: &str) -> Flow {
    let mut records = vec![header()];
    for (index, cents) in amounts.iter().enumerate() {
        let number = format!("{:07}", index + 1);
        let mut block = recall(first_rent(&number));
        block[0][33..46].copy_from_slice(format!("{cents:013}").as_bytes());
        records.extend(block);
    }
    let count = format!("{:07}", amounts.len());
    let all = format!("{:07}", records.len() + 1);
    let end = recall_trailer(&count, positive, &all);
    records.push(end);
    let last = records.len();
    Flow(records).with(last, 53, negative.as_bytes())
}

#[test]
fn the_largest_total_of_recalls() {
    let (zeros, limit) = ("000000000000000", "999999999999999");
    let mut amounts = vec![MAX; 100];
    amounts.push(99);
    let right = many(&amounts, zeros, limit);
    assert_eq!(right.read(), recalled(101, 999_999_999_999_999, 709));
    let mut flow = right.bytes();
    assert_eq!(change(&mut flow, 101, 100), refused(17, 0, 0));
    assert_eq!(change(&mut flow, 101, MAX + 1), refused(16, 0, 0));
    assert_eq!(flow, right.bytes());
    assert_eq!(change(&mut flow, 101, 0), refused(16, 0, 0));
    assert_eq!(
        change(&mut flow, 101, 1),
        recalled(101, 999_999_999_999_901, 709)
    );
    // A sum of 16 digits is 13 at 68, whatever stands there, after 53.
    amounts[100] = 100;
    for positive in [zeros, limit, "100000000000000"] {
        let flow = many(&amounts, zeros, positive);
        assert_eq!(flow.read(), refused(13, 709, 68));
        let flow = many(&amounts, limit, positive);
        assert_eq!(flow.read(), refused(13, 709, 53));
    }
    let flow = many(&amounts, zeros, "99999999999999A");
    assert_eq!(flow.read(), refused(5, 709, 68));
}

#[test]
fn number_17_of_a_list_of_recalls() {
    let mut amounts = vec![MAX; 100];
    amounts.push(99);
    let flow = many(&amounts, "000000000000000", "999999999999999").bytes();
    let mut list = list_of(&flow);
    assert_eq!(list[0], b'Q');
    let mut out = vec![b'#'; 709 * 120];
    let due = recalled(101, 999_999_999_999_999, 709);
    assert_eq!(write_flow(&list, &mut out), (due, 709 * 120));
    assert_eq!(out, flow);
    // The last D stands 593 bytes before the end.
    let at = list.len() - 593 + 7;
    list[at..at + 13].copy_from_slice(b"0000000000100");
    let mut out = vec![b'#'; 709 * 120];
    assert_eq!(write_flow(&list, &mut out), (refused(17, 0, 0), 0));
    assert!(out.iter().all(|&byte| byte == b'#'));
}

/// Several headers, none, or one too late: the first fault is a type's.
#[test]
fn headers_of_both_kinds_in_a_list() {
    let requests = two_rents_list();
    let (h, rent) = (&requests[..50], &requests[50..643]);
    let recalls = two_recalls_list();
    let q = &recalls[..50];
    let opening = &rent[..59];
    let mut out = vec![b'#'; 5_000];
    for (parts, due) in [
        (vec![h, rent], accepted(1, 45_000, 9)),
        (vec![q, rent], recalled(1, 45_000, 9)),
        (vec![h, q, rent], refused(3, 2, 2)),
        (vec![q, h, rent], refused(3, 2, 2)),
        (vec![q, q, rent], refused(3, 2, 2)),
        (vec![h, rent, q], refused(3, 9, 2)),
        (vec![q, rent, h], refused(3, 9, 2)),
        (vec![h, rent, q, rent], refused(3, 9, 2)),
        (vec![q, rent, h, rent], refused(3, 9, 2)),
        (vec![h, opening, q], refused(3, 3, 2)),
        (vec![opening, q], refused(3, 1, 2)),
        (vec![opening, h], refused(3, 1, 2)),
        (vec![rent, q, rent], refused(3, 1, 2)),
        (vec![q], refused(3, 2, 2)),
        (vec![q, opening], refused(3, 3, 2)),
    ] {
        let answer = write_flow(&parts.concat(), &mut out).0;
        assert_eq!(answer, due);
        out.fill(b'#');
    }
}

#[test]
fn number_20_of_an_item_q() {
    let list = two_recalls_list();
    let mut out = vec![b'#'; 2_000];
    for cut in 1..50 {
        assert_eq!(write_flow(&list[..cut], &mut out), (refused(20, 1, 0), 0));
    }
    assert_eq!(write_flow(&list[..50], &mut out), (refused(3, 2, 2), 0));
    let mut small = list.clone();
    small[0] = b'q';
    assert_eq!(write_flow(&small, &mut out), (refused(20, 1, 0), 0));
    let behind = [&list[..], b"Q"].concat();
    assert_eq!(write_flow(&behind, &mut out), (refused(20, 16, 0), 0));
    assert!(out.iter().all(|&byte| byte == b'#'));
    assert_eq!(write_flow(&list, &mut out[..1_919]), (refused(21, 0, 0), 0));
}

/// A list differs from that of the other kind in its first byte alone.
#[test]
fn a_list_with_the_other_letter() {
    for index in 0..2_000 {
        let mut rng = Rng::for_case(71, index);
        let mut list = generate::draft(&mut rng, generate::Size::Small).list();
        let room = 120 * (items(&list).count() + 1);
        let (mut one, mut other) = (vec![b'#'; room], vec![b'#'; room]);
        let (answer, _) = write_flow(&list, &mut one);
        list[0] = match list[0] {
            b'H' => b'Q',
            _ => b'H',
        };
        let (turned, len) = write_flow(&list, &mut other);
        assert_eq!(len, room);
        assert_eq!(numbers(answer), numbers(turned));
        assert_ne!(answer, turned);
        for index in 0..room {
            let position = index % 120 + 1;
            let start = index + 1 - position;
            // The causales differ in their third byte.
            let may_differ = match &one[start + 1..start + 3] {
                b"14" => matches!(position, 31 | 47),
                b"EF" => matches!(position, 53..=82),
                _ => false,
            };
            assert!(may_differ || one[index] == other[index], "{index}");
        }
    }
}

/// Dispositions, cents and records of an accepted answer.
fn numbers(answer: Answer) -> (u64, u64, u64) {
    match answer {
        Answer::Accepted {
            dispositions,
            cents,
            records,
            ..
        } => (dispositions, cents, records),
        Answer::Refused { .. } => panic!("{answer}"),
    }
}

/// The kind of an accepted answer.
fn kind(answer: Answer) -> Option<FlowKind> {
    match answer {
        Answer::Accepted { kind, .. } => Some(kind),
        Answer::Refused { .. } => None,
    }
}

/// Neither kind comes in less than two of five accepted cases; and writing,
/// which judges what it has encoded itself, never gives 22.
#[test]
fn both_kinds_are_as_usual() {
    let (mut flows, mut lists) = ([0, 0], [0, 0]);
    for index in 0..12_000 {
        let flow = generate::flow_case(72, index);
        if let Some(kind) = kind(read(&flow)) {
            flows[usize::from(kind == FlowKind::Recalls)] += 1;
        }
        let list = generate::list(&mut Rng::for_case(73, index));
        let mut out = vec![0; 120 * (items(&list).count() + 1)];
        let (answer, _) = write_flow(&list, &mut out);
        assert!(!matches!(answer, Answer::Refused { number: 22, .. }));
        if let Some(kind) = kind(answer) {
            lists[usize::from(kind == FlowKind::Recalls)] += 1;
        }
    }
    for [requests, recalls] in [flows, lists] {
        let all = requests + recalls;
        assert!(all > 2_000 && 5 * requests > 2 * all && 5 * recalls > 2 * all);
    }
}

/// Each fault that the kind decides comes in generated flows of either kind,
/// of the first 14 and of later ones.
#[test]
fn generated_flows_break_every_rule_of_the_kind() {
    let mut met = std::collections::HashMap::new();
    for index in 0..60_000 {
        let flow = generate::flow_case(74, index);
        if let Answer::Refused {
            number,
            record,
            position,
        } = read(&flow)
        {
            let recalls = flow.get(148..153) == Some(b"07100");
            let key = (recalls, number, record == 2, position);
            *met.entry(key).or_insert(0) += 1;
        }
    }
    for recalls in [false, true] {
        for (number, first, position) in [
            (6, true, 47),
            (6, false, 29),
            (6, false, 47),
            (22, false, 29),
            (5, false, 53),
            (13, false, 53),
            (5, false, 68),
            (13, false, 68),
        ] {
            let count = met.get(&(recalls, number, first, position));
            let often = count.is_some_and(|&count| count >= 30);
            assert!(often, "{recalls} {number} {first} {position}: {count:?}");
        }
    }
    // A first 14 with a causale of neither kind tells none.
    assert!(met[&(false, 6, true, 29)] >= 30);
}
