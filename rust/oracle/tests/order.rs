//! The order of faults, by pairs (document 01, "Numbers a clerk may see").

mod common;

use common::*;
use oracle::reader::read;

/// One fault: where it is put, what is put there, and the answer it gives.
type Case = (usize, usize, &'static [u8], u8, u8);

/// Faults by record and rising position, each with number and position due.
/// A later row of the same record is later in order.
const FAULTS: [Case; 58] = [
    (1, 60, b"\x7f", 2, 60),
    (1, 2, b"14", 3, 2),
    (1, 4, b"     ", 7, 4),
    (1, 9, b"A", 5, 9),
    (1, 14, b"    ", 5, 14),
    (1, 20, b"                    ", 7, 20),
    (1, 105, b"3", 6, 105),
    (1, 114, b"L", 6, 114),
    (2, 70, b"\0", 2, 70),
    (2, 2, b"10", 3, 2),
    (2, 4, b"0000000", 9, 4),
    (2, 23, b"300226", 8, 23),
    (2, 29, b"07200", 6, 29),
    (2, 34, b":", 5, 34),
    (2, 34, b"0000000000000", 25, 34),
    (2, 47, b"+", 6, 47),
    (2, 48, b"99999", 10, 48),
    (2, 53, b" ", 5, 53),
    (2, 97, b"0", 6, 97),
    (2, 120, b"L", 6, 120),
    (3, 120, b"\x1f", 2, 120),
    (3, 2, b"15", 3, 2),
    (3, 4, b"       ", 5, 4),
    (3, 11, b"FR", 6, 11),
    (3, 13, b"/", 5, 13),
    (3, 15, b" ", 7, 15),
    (3, 16, b"01230", 10, 16),
    (3, 21, b"00000", 6, 21),
    (3, 26, b"            ", 7, 26),
    (4, 61, b"\xff", 2, 61),
    (4, 2, b"21", 3, 2),
    (4, 4, b"0000002", 9, 4),
    (4, 11, b"                        ", 7, 11),
    (5, 4, b"0000002", 9, 4),
    (5, 11, b"                              ", 7, 11),
    (6, 4, b"000000A", 5, 4),
    (11, 4, b"0000003", 9, 4),
    (12, 4, b"0000003", 9, 4),
    (13, 4, b"0000003", 9, 4),
    (13, 94, b"X", 6, 94),
    (14, 4, b"0000001", 9, 4),
    (14, 29, b"07100", 22, 29),
    (14, 34, b"0000000000000", 25, 34),
    (14, 48, b"12340", 10, 48),
    (14, 92, b"ZZZZZ", 11, 92),
    (14, 97, b"7", 6, 97),
    (21, 119, b"\n", 2, 119),
    (21, 2, b"IM", 3, 2),
    (21, 4, b"AB124", 10, 4),
    (21, 9, b"0123A", 10, 9),
    (21, 14, b"160326", 10, 14),
    (21, 20, b"rent", 10, 20),
    (21, 46, b"0000001", 12, 46),
    (21, 53, b"000000000083051", 13, 53),
    (21, 68, b"000000000000009", 13, 68),
    (21, 83, b"000001 ", 5, 83),
    (21, 114, b"F", 10, 114),
    (21, 115, b"\x7f", 2, 115),
];

/// The faults of a flow of recalls that are others than those of requests.
const RECALL_FAULTS: [Case; 4] = [
    (2, 47, b"-", 6, 47),
    (14, 29, b"07000", 22, 29),
    (21, 53, b"000000000000009", 13, 53),
    (21, 68, b"000000000083051", 13, 68),
];

/// The faults of a flow of recalls: those of requests, but with others where
/// the kind decides.
fn recall_faults() -> Vec<Case> {
    let replaced = |fault: &&Case| {
        RECALL_FAULTS
            .iter()
            .any(|r| (r.0, r.1) == (fault.0, fault.1))
    };
    let same = FAULTS.iter().filter(|fault| !replaced(fault));
    same.chain(&RECALL_FAULTS).copied().collect()
}

fn due(fault: &Case) -> oracle::Answer {
    refused(fault.3, fault.0 as u64, fault.4)
}

/// Rows of one record in order: 2, then 3, then by position.
fn rank(fault: &Case) -> (usize, u8, u8) {
    match fault.3 {
        2 => (fault.0, 0, fault.4),
        3 => (fault.0, 1, 2),
        _ => (fault.0, 2, fault.4),
    }
}

#[test]
fn each_fault_alone() {
    for fault in &FAULTS {
        let flow = all_types().with(fault.0, fault.1, fault.2);
        assert_eq!(flow.read(), due(fault), "{fault:?}");
    }
    for fault in &recall_faults() {
        let flow = all_types_recalled().with(fault.0, fault.1, fault.2);
        assert_eq!(flow.read(), due(fault), "{fault:?}");
    }
}

#[test]
fn of_two_faults_the_first_in_order_wins() {
    check_pairs(&all_types(), &FAULTS);
    check_pairs(&all_types_recalled(), &recall_faults());
}

fn check_pairs(right: &Flow, faults: &[Case]) {
    for one in faults {
        for other in faults {
            // A changed header changes what the later records must equal.
            let same_field = one.0 == other.0 && one.1 == other.1;
            if same_field {
                continue;
            }
            let flow = right
                .clone()
                .with(one.0, one.1, one.2)
                .with(other.0, other.1, other.2);
            let first = if rank(one) < rank(other) { one } else { other };
            assert_eq!(flow.read(), due(first), "{one:?} {other:?}");
        }
    }
}

#[test]
fn length_comes_before_everything() {
    let mut flow = all_types().with(1, 1, b"\0").bytes();
    assert_eq!(read(&flow), refused(2, 1, 1));
    flow.push(b' ');
    assert_eq!(read(&flow), refused(1, 0, 0));
}

#[test]
fn a_byte_outside_at_the_type_is_2() {
    assert_eq!(two_rents().with(3, 2, b"\x7f0").read(), refused(2, 3, 2));
    assert_eq!(two_rents().with(3, 3, b"\0").read(), refused(2, 3, 3));
    // Of two such bytes the lower position, also before the type.
    let flow = two_rents().with(3, 2, b"99").with(3, 120, b"\x80");
    assert_eq!(flow.read(), refused(2, 3, 120));
}

#[test]
fn not_digits_come_before_what_compares_them() {
    for (record, position, wrong) in [
        (2, 4, &b"000000A"[..]),
        (2, 34, b"000000000000 "),
        (2, 48, b"9999 "),
        (14, 34, b"O000000000000"),
        (3, 16, b"A9999"),
        (3, 21, b"0000 "),
        (21, 46, b"000009A"),
        (21, 53, b"99999999999999 "),
        (21, 68, b"A99999999999999"),
        (21, 83, b"999999:"),
    ] {
        let flow = all_types().with(record, position, wrong);
        let due = refused(5, record as u64, position as u8);
        assert_eq!(flow.read(), due);
    }
    // The header's copies in the trailer are only compared.
    assert_eq!(two_rents().with(16, 9, b"ABCDE").read(), refused(10, 16, 9));
    assert_eq!(
        two_rents().with(16, 14, b"990099").read(),
        refused(10, 16, 14)
    );
    // A date: first digits, then the calendar.
    assert_eq!(two_rents().with(2, 23, b"9999 9").read(), refused(5, 2, 23));
}

#[test]
fn the_header_qualifier_in_order() {
    for (text, number, position) in [
        (b"2E0567A", 6, 105),
        (b" $05678", 6, 105),
        (b"1 05678", 6, 106),
        (b"1E0567A", 6, 106),
        (b"1$0567A", 5, 107),
        (b"1$ 5678", 5, 107),
        (b"      0", 6, 105),
        (b"1      ", 6, 106),
    ] {
        let flow = two_rents().with(1, 105, text).with(1, 114, b"X");
        assert_eq!(flow.read(), refused(number, 1, position));
    }
}

#[test]
fn ended_comes_when_every_record_present_is_right() {
    let flow = two_rents().with(7, 4, b"0000002").bytes();
    assert_eq!(read(&flow[..120 * 6]), refused(4, 7, 0));
    assert_eq!(read(&flow[..120 * 7]), refused(9, 7, 4));
    assert_eq!(read(&flow[..120 * 10]), refused(9, 7, 4));
}

#[test]
fn faults_of_the_trailer_come_before_records_after_it() {
    let extra = two_rents().insert(17, row(&[]));
    assert_eq!(extra.read(), refused(3, 17, 2));
    // The count of records that is right for the longer flow is wrong at EF.
    let counted = two_rents().with(16, 83, b"0000017").insert(17, row(&[]));
    assert_eq!(counted.read(), refused(14, 16, 83));
    let outside = two_rents().insert(17, row(&[(7, "\x7f")]));
    assert_eq!(outside.read(), refused(2, 17, 7));
}
