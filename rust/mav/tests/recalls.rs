//! Recalls of requests already sent (document 02, E1; document 003, section 3): causale 07100 and sign + in
//! every record 14, the total at 68-82 of the trailer and zeros at 53-67, and a list that opens with Q.

mod common;

use common::{accepted, differences, of_call, positions, put, recalled, refused, sample};
use mav::{Reason, MAX_AMOUNT, MAX_TOTAL};

/// The total of the two rents, 45000 and 38050 cents, in the fifteen digits of the trailer.
const TOTAL: &[u8; 15] = b"000000000083050";
const ZEROS: &[u8; 15] = b"000000000000000";

/// A flow of requests as one of recalls: what differs by kind, and nothing else.
fn turned(mut flow: Vec<u8>) -> Vec<u8> {
    let records = flow.len() / 120;
    for record in 1..=records {
        if flow[positions(record, 2, 3)] == *b"14" {
            put(&mut flow, record, 29, b"07100");
            put(&mut flow, record, 47, b"+");
        }
    }
    let total = flow[positions(records, 53, 67)].to_vec();
    put(&mut flow, records, 53, ZEROS);
    put(&mut flow, records, 68, &total);
    flow
}

/// The sample with bytes put into one record.
fn with(file: &str, record: usize, position: usize, bytes: &[u8]) -> Vec<u8> {
    let mut flow = sample(file);
    put(&mut flow, record, position, bytes);
    flow
}

#[test]
fn the_sample_is_the_two_rents_turned() {
    let flow = sample("two-rents-recall.flow");
    assert_eq!(flow, turned(sample("two-rents.flow")));
    // The trailer whole, as document 01 has it but for the place of the total.
    let trailer = [
        &b" EFAB12301234150326RENT-MARCH                "[..],
        b"0000002000000000000000000000000083050",
        b"0000016                        E      ",
    ];
    assert_eq!(flow[1_800..], trailer.concat());
    let list = sample("two-rents-recall.list");
    assert_eq!(list[0], b'Q');
    assert_eq!(list[1..], sample("two-rents.list")[1..]);
}

#[test]
fn read_find_write_and_read_back() {
    let flow = sample("two-rents-recall.flow");
    let list = sample("two-rents-recall.list");
    let told = recalled(2, 83_050, 16);
    assert_eq!(mav::read(&flow), Ok(told));
    let found = mav::find(&flow, 2).expect("two dispositions");
    assert_eq!(
        (found.first_record, found.records, found.cents),
        (9, 7, 38_050)
    );
    assert_eq!(found.part, &flow[960..1_800]);
    assert_eq!(mav::write_to_vec(&list), Ok((told, flow.clone())));
    assert_eq!(mav::read_back_to_vec(&flow), Ok((told, list)));
}

#[test]
fn forty_rents_turned_both_ways() {
    let flow = turned(sample("forty-rents.flow"));
    let mut list = sample("forty-rents.list");
    list[0] = b'Q';
    let told = recalled(40, 2_225_000, 368);
    assert_eq!(mav::read(&flow), Ok(told));
    assert_eq!(mav::read_back_to_vec(&flow), Ok((told, list.clone())));
    assert_eq!(mav::write_to_vec(&list), Ok((told, flow)));
}

#[test]
fn a_change_writes_68_to_82() {
    let before = sample("two-rents-recall.flow");
    let mut flow = before.clone();
    // 1111111111111 + 38050 = 1111111149161.
    let told = mav::change(&mut flow, 1, 1_111_111_111_111);
    assert_eq!(told, Ok(recalled(2, 1_111_111_149_161, 16)));
    let mut due = before;
    put(&mut due, 2, 34, b"1111111111111");
    put(&mut due, 16, 68, b"001111111149161");
    assert_eq!(flow, due);
    assert_eq!(flow[positions(16, 53, 67)], *ZEROS);
    assert_eq!(mav::read(&flow), told);
    // Example 2 of document 01.
    let told = mav::change(&mut flow, 1, 45_000);
    assert_eq!(told, Ok(recalled(2, 83_050, 16)));
    assert_eq!(
        mav::change(&mut flow, 2, 40_000),
        Ok(recalled(2, 85_000, 16))
    );
    assert_eq!(flow[positions(16, 68, 82)], *b"000000000085000");
}

#[test]
fn a_withdrawal_writes_68_to_82() {
    let before = sample("two-rents-recall.flow");
    let mut memory = before.clone();
    let left = mav::withdraw_in_place(&mut memory, 1).expect("two dispositions");
    assert_eq!(
        (left.length, left.accepted),
        (1_080, recalled(1, 38_050, 9))
    );
    let mut due = [&before[..120], &before[960..]].concat();
    for record in 2..=8 {
        put(&mut due, record, 4, b"0000001");
    }
    put(&mut due, 9, 46, b"0000001");
    put(&mut due, 9, 68, b"000000000038050");
    put(&mut due, 9, 83, b"0000009");
    assert_eq!(memory[..1_080], due);
    assert_eq!(memory[1_080..], [b' '; 840]);
    let mut flow = before;
    assert_eq!(mav::withdraw(&mut flow, 1), Ok(left.accepted));
    assert_eq!(flow, due);
    // The other one.
    let mut flow = sample("two-rents-recall.flow");
    let told = mav::withdraw(&mut flow, 2);
    assert_eq!(told, Ok(recalled(1, 45_000, 9)));
    assert_eq!(flow, turned(sample("one-rent.flow")));
}

#[test]
fn a_withdrawal_leaves_what_is_not_named() {
    let before = turned(sample("forty-rents.flow"));
    let mut flow = before.clone();
    let part = mav::find(&flow, 17).expect("forty").range();
    // Each has 30000 cents and 1250 more for its number: 2225000 - 51250.
    let records = 368 - part.len() as u64 / 120;
    let told = mav::withdraw(&mut flow, 17);
    assert_eq!(told, Ok(recalled(39, 2_173_750, records)));
    let kept = [&before[..part.start], &before[part.end..]].concat();
    for index in differences(&flow, &kept) {
        let (record, position) = (index / 120 + 1, index % 120 + 1);
        let renumbered = (4..=10).contains(&position) && index >= part.start;
        let counted = matches!(position, 46..=52 | 68..=82 | 83..=89);
        let trailer = record as u64 == records;
        assert!(if trailer { counted } else { renumbered }, "byte {index}");
    }
}

#[test]
fn forty_recalls_withdrawn_one_after_another() {
    let mut flow = turned(sample("forty-rents.flow"));
    for count in (1..40).rev() {
        let left = mav::withdraw(&mut flow, 1).expect("more than one");
        assert_eq!(left.dispositions, count);
        assert_eq!(mav::read(&flow), Ok(left));
    }
    // The fortieth is left, of 30000 + 40 * 1250 cents.
    let told = mav::read(&flow).expect("right");
    assert_eq!(told, recalled(1, 80_000, told.records));
    assert_eq!(
        mav::withdraw(&mut flow, 1),
        Err(of_call(Reason::OnlyDisposition))
    );
}

#[test]
fn refused_calls_leave_every_byte() {
    let before = sample("two-rents-recall.flow");
    let mut flow = before.clone();
    for k in [0, 3, u64::MAX] {
        let refusal = of_call(Reason::NoSuchDisposition);
        assert_eq!(mav::find(&flow, k), Err(refusal));
        assert_eq!(mav::change(&mut flow, k, u64::MAX), Err(refusal));
        assert_eq!(mav::withdraw(&mut flow, k), Err(refusal));
        assert_eq!(mav::withdraw_in_place(&mut flow, k), Err(refusal));
    }
    for cents in [0, MAX_AMOUNT + 1] {
        let told = mav::change(&mut flow, 1, cents);
        assert_eq!(told, Err(of_call(Reason::NotAnAmount)));
    }
    assert_eq!(flow, before);
    let mut out = [b'#'; 1_920];
    let refusal = of_call(Reason::Room);
    assert_eq!(mav::read_back(&flow, &mut out[..1_235]), Err(refusal));
    let list = sample("two-rents-recall.list");
    assert_eq!(mav::write(&list, &mut out[..1_919]), Err(refusal));
    assert_eq!(out, [b'#'; 1_920]);
}

#[test]
fn a_flow_of_both_kinds() {
    let refusal = refused(Reason::OtherKind, 9, 29);
    let sample_of_both = sample("refused-22-kind.flow");
    assert_eq!(
        sample_of_both,
        [
            &sample("two-rents.flow")[..960],
            &sample("two-rents-recall.flow")[960..1_800],
            &sample("two-rents.flow")[1_800..],
        ]
        .concat()
    );
    // The first record 14 decides, and the one of the other kind is refused.
    let request_last = with("two-rents-recall.flow", 9, 29, b"07000");
    for mut flow in [sample_of_both, request_last] {
        let before = flow.clone();
        assert_eq!(mav::read(&flow), Err(refusal));
        for k in [0, 1, 2, 3] {
            assert_eq!(mav::find(&flow, k), Err(refusal));
            assert_eq!(mav::change(&mut flow, k, u64::MAX), Err(refusal));
            assert_eq!(mav::withdraw(&mut flow, k), Err(refusal));
            assert_eq!(mav::withdraw_in_place(&mut flow, k), Err(refusal));
        }
        let mut out = [b'#'; 1_920];
        assert_eq!(mav::read_back(&flow, &mut out), Err(refusal));
        // Before the room.
        assert_eq!(mav::read_back(&flow, &mut []), Err(refusal));
        assert_eq!((flow, out), (before, [b'#'; 1_920]));
    }
}

#[test]
fn the_one_of_another_kind_is_named() {
    let mut flow = turned(sample("forty-rents.flow"));
    let first = mav::find(&flow, 17).expect("forty").first_record;
    put(&mut flow, first as usize, 29, b"07000");
    assert_eq!(mav::read(&flow), Err(refused(Reason::OtherKind, first, 29)));
}

#[test]
fn number_22_stands_between_its_neighbours() {
    let mixed = |position, bytes: &[u8]| {
        let mut flow = sample("refused-22-kind.flow");
        put(&mut flow, 9, position, bytes);
        mav::read(&flow)
    };
    // Before it: the number, the date, and a causale that is neither.
    let due = refused(Reason::DispositionNumber, 9, 4);
    assert_eq!(mixed(4, b"0000001"), Err(due));
    assert_eq!(mixed(23, b"290227"), Err(refused(Reason::NotADate, 9, 23)));
    assert_eq!(
        mixed(29, b"07200"),
        Err(refused(Reason::NotPermitted, 9, 29))
    );
    // After it: the amount, the sign of either kind, the ABI.
    let due = refused(Reason::OtherKind, 9, 29);
    assert_eq!(mixed(34, b"00000000380.5"), Err(due));
    assert_eq!(mixed(47, b"-"), Err(due));
    assert_eq!(mixed(47, b"?"), Err(due));
    assert_eq!(mixed(48, b"01235"), Err(due));
}

#[test]
fn a_causale_of_neither_kind() {
    for file in ["two-rents.flow", "two-rents-recall.flow"] {
        for causale in [b"07200", b"07101", b"07010", b"     ", b"0710O", b"17100"] {
            for record in [2, 9] {
                let flow = with(file, record, 29, causale);
                let refusal = refused(Reason::NotPermitted, record as u64, 29);
                assert_eq!(mav::read(&flow), Err(refusal), "{file} {causale:?}");
            }
        }
    }
}

#[test]
fn the_sign_is_that_of_the_kind() {
    for (file, other) in [("two-rents.flow", b"+"), ("two-rents-recall.flow", b"-")] {
        for record in [2, 9] {
            for sign in [&other[..], b" ", b"0"] {
                let flow = with(file, record, 47, sign);
                let refusal = refused(Reason::NotPermitted, record as u64, 47);
                assert_eq!(mav::read(&flow), Err(refusal), "{file} {sign:?}");
            }
        }
    }
    // A recall by its causale alone is one with the wrong sign, and the other way round.
    let flow = with("two-rents.flow", 2, 29, b"07100");
    assert_eq!(mav::read(&flow), Err(refused(Reason::NotPermitted, 2, 47)));
    let flow = with("two-rents-recall.flow", 2, 29, b"07000");
    assert_eq!(mav::read(&flow), Err(refused(Reason::NotPermitted, 2, 47)));
}

#[test]
fn the_totals_are_those_of_the_kind() {
    let totals = |file, at_53: &[u8], at_68: &[u8]| {
        let mut flow = sample(file);
        put(&mut flow, 16, 53, at_53);
        put(&mut flow, 16, 68, at_68);
        mav::read(&flow)
    };
    let wrong = |position| Err(refused(Reason::Total, 16, position));
    let letters = |position| Err(refused(Reason::NotDigits, 16, position));
    let requests = |at_53, at_68| totals("two-rents.flow", at_53, at_68);
    let recalls = |at_53, at_68| totals("two-rents-recall.flow", at_53, at_68);
    assert_eq!(requests(TOTAL, ZEROS), Ok(accepted(2, 83_050, 16)));
    assert_eq!(recalls(ZEROS, TOTAL), Ok(recalled(2, 83_050, 16)));
    // At the other kind's place, at both, at none, a cent beside it.
    assert_eq!(requests(ZEROS, TOTAL), wrong(53));
    assert_eq!(recalls(TOTAL, ZEROS), wrong(53));
    assert_eq!(requests(TOTAL, TOTAL), wrong(68));
    assert_eq!(recalls(TOTAL, TOTAL), wrong(53));
    assert_eq!(requests(ZEROS, ZEROS), wrong(53));
    assert_eq!(recalls(ZEROS, ZEROS), wrong(68));
    assert_eq!(recalls(ZEROS, b"000000000083051"), wrong(68));
    // Not digits: before what they are compared with, and the lower place first.
    assert_eq!(recalls(b"00000000000000 ", TOTAL), letters(53));
    assert_eq!(recalls(ZEROS, b"          83050"), letters(68));
    assert_eq!(recalls(b"              0", b"          83050"), letters(53));
    assert_eq!(recalls(b"000000000000001", b"          83050"), wrong(53));
}

/// The list of 101 recalls of the largest amount, the last of them with another amount.
fn rich_list(last: &[u8; 13]) -> Vec<u8> {
    let mut list = sample("refused-17-total.list");
    list[0] = b'Q';
    // A Q of 50 bytes and a hundred rents of 593; then D, six bytes of date, and the amount.
    let amount = 50 + 100 * 593 + 1 + 6;
    list[amount..amount + 13].copy_from_slice(last);
    list
}

#[test]
fn a_total_at_the_limit() {
    // A hundred times 9999999999999 and 99 are 999999999999999.
    let (told, mut flow) = mav::write_to_vec(&rich_list(b"0000000000099")).expect("fifteen nines");
    assert_eq!(told, recalled(101, MAX_TOTAL, 709));
    assert_eq!(flow[positions(709, 53, 67)], *ZEROS);
    assert_eq!(flow[positions(709, 68, 82)], [b'9'; 15]);
    let before = flow.clone();
    let refusal = of_call(Reason::TotalTooLarge);
    assert_eq!(mav::change(&mut flow, 101, 100), Err(refusal));
    assert_eq!(mav::change(&mut flow, 101, 99), Ok(told));
    assert_eq!(flow, before);
    assert_eq!(
        mav::write_to_vec(&rich_list(b"0000000000100")),
        Err(refusal)
    );
    // A sum of sixteen digits is wrong at the kind's place, whatever digits stand there.
    put(&mut flow, 702, 34, b"0000000000100");
    assert_eq!(flow[positions(702, 2, 3)], *b"14");
    for digits in [ZEROS, b"999999999999999"] {
        put(&mut flow, 709, 68, digits);
        assert_eq!(mav::read(&flow), Err(refused(Reason::Total, 709, 68)));
    }
}

#[test]
fn a_list_has_one_header() {
    let list = sample("two-rents-recall.list");
    let requests = sample("two-rents.list");
    // A second header, of the other kind or of its own, may not stand there: record 9 is due to be a 14.
    for second in [&requests[..50], &list[..50]] {
        let with_two = [&list[..643], second, &list[643..]].concat();
        let refusal = refused(Reason::RecordType, 9, 2);
        assert_eq!(mav::write_to_vec(&with_two), Err(refusal));
    }
    // Without one a disposition may not stand either.
    let refusal = refused(Reason::RecordType, 1, 2);
    assert_eq!(mav::write_to_vec(&list[50..]), Err(refusal));
    // A small q is no kind of item, and a Q is as long as an H.
    let refusal = refused(Reason::Item, 1, 0);
    assert_eq!(
        mav::write_to_vec(&[b"q", &list[1..]].concat()),
        Err(refusal)
    );
    assert_eq!(mav::write_to_vec(&list[..49]), Err(refusal));
    assert_eq!(
        mav::write_to_vec(&list[..50]),
        Err(refused(Reason::RecordType, 2, 2))
    );
}
