//! Each row of document 01's table of numbers, at different records.

mod common;

use common::*;
use oracle::amend::{change, withdraw};
use oracle::find::find;
use oracle::list::{write_flow, write_list};
use oracle::reader::read;

#[test]
fn number_1_length() {
    let flow = two_rents().bytes();
    for len in [0, 1, 119, 121, 1_919] {
        assert_eq!(read(&flow[..len]), refused(1, 0, 0), "length {len}");
    }
    assert_eq!(read(&[&flow[..], b"\n"].concat()), refused(1, 0, 0));
    // The longest flow is read; one record more is not. The zeros are not
    // looked at beyond the first byte.
    assert_eq!(read(&vec![0; 1_199_999_880]), refused(2, 1, 1));
    assert_eq!(read(&vec![0; 1_200_000_000]), refused(1, 0, 0));
}

#[test]
fn number_2_bytes() {
    for byte in [0, 9, 10, 31, 127, 128, 0xe8, 255] {
        for (record, position) in [(1, 1), (1, 2), (4, 60), (9, 34), (16, 120)] {
            let flow = two_rents().with(record, position, &[byte]);
            let due = refused(2, record as u64, position as u8);
            assert_eq!(flow.read(), due, "byte {byte}");
        }
    }
    let flow = two_rents().with(5, 119, b"\0").with(5, 7, b"\0");
    assert_eq!(flow.read(), refused(2, 5, 7));
    let edges = two_rents().with(5, 119, b"~").with(5, 7, b"0");
    assert_eq!(edges.read(), accepted(2, 83_050, 16));
}

#[test]
fn number_3_types() {
    assert_eq!(two_rents().with(1, 2, b"PC").read(), refused(3, 1, 2));
    assert_eq!(two_rents().without(1).read(), refused(3, 1, 2));
    assert_eq!(two_rents().without(2).read(), refused(3, 2, 2));
    assert_eq!(two_rents().with(3, 2, b"21").read(), refused(3, 3, 2));
    assert_eq!(two_rents().with(4, 2, b"  ").read(), refused(3, 4, 2));
    assert_eq!(two_rents().with(8, 2, b"14").read(), refused(3, 8, 2));
    assert_eq!(two_rents().insert(2, header()).read(), refused(3, 2, 2));
    assert_eq!(two_rents().insert(9, header()).read(), refused(3, 9, 2));
    assert_eq!(two_rents().with(16, 2, b"ef").read(), refused(3, 16, 2));
    // 16 twice, and after 20.
    let twice = all_types().insert(3, account("0000001"));
    assert_eq!(twice.read(), refused(3, 4, 2));
    let late = two_rents().insert(4, account("0000001"));
    assert_eq!(late.read(), refused(3, 4, 2));
    // 59 after 51, and a disposition with neither 50 nor 59.
    let after_51 = two_rents().insert(8, detail("59", "0000001"));
    assert_eq!(after_51.read(), refused(3, 8, 2));
    assert_eq!(two_rents().without(6).read(), refused(3, 6, 2));
    // EF inside a disposition.
    assert_eq!(two_rents().without(15).read(), refused(3, 15, 2));
    // Nothing comes after EF.
    for record in [header(), first_rent("0000003")[0].clone(), row(&[])] {
        let flow = two_rents().insert(17, record);
        assert_eq!(flow.read(), refused(3, 17, 2));
    }
    let again = two_rents().insert(17, trailer("0000002", "000000000083050", "0000017"));
    assert_eq!(again.read(), refused(3, 17, 2));
}

#[test]
fn number_4_ended() {
    let flow = two_rents().bytes();
    for records in 1..16 {
        let due = refused(4, records as u64 + 1, 0);
        assert_eq!(read(&flow[..120 * records]), due);
    }
}

#[test]
fn number_5_digits() {
    for (record, position, len) in [
        (1, 9, 5),
        (1, 14, 6),
        (2, 4, 7),
        (2, 23, 6),
        (2, 34, 13),
        (2, 48, 5),
        (3, 4, 7),
        (3, 13, 2),
        (3, 16, 5),
        (3, 21, 5),
        (4, 4, 7),
        (5, 4, 7),
        (6, 4, 7),
        (7, 4, 7),
        (11, 4, 7),
        (12, 4, 7),
        (13, 4, 7),
        (14, 4, 7),
        (14, 34, 13),
        (18, 4, 7),
        (21, 46, 7),
        (21, 53, 15),
        (21, 68, 15),
        (21, 83, 7),
    ] {
        for place in [0, len / 2, len - 1] {
            for byte in [b' ', b'/', b':', b'+', b'-', b'.', b'A'] {
                // A right EF 9-13 differs from the header's: not here.
                let flow = all_types().with(record, position + place, &[byte]);
                let due = refused(5, record as u64, position as u8);
                assert_eq!(flow.read(), due, "{record} {position} {byte}");
            }
        }
        let blank = all_types().with(record, position, &vec![b' '; len]);
        assert_eq!(blank.read(), refused(5, record as u64, position as u8));
    }
    // The CAB is all blank or all digits.
    assert_eq!(two_rents().with(2, 53, b"    0").read(), refused(5, 2, 53));
    assert_eq!(two_rents().with(9, 53, b"0240 ").read(), refused(5, 9, 53));
    let blank = two_rents().with(9, 53, b"     ");
    assert_eq!(blank.read(), accepted(2, 83_050, 16));
    // The header's ABI of the carrier, if 105-111 are used at all.
    let flow = two_rents().with(1, 105, b"1$0567 ");
    assert_eq!(flow.read(), refused(5, 1, 107));
    let flow = two_rents().with(1, 105, b"1$     ");
    assert_eq!(flow.read(), refused(5, 1, 107));
    let flow = two_rents().with(1, 105, b"1$05678");
    assert_eq!(flow.read(), accepted(2, 83_050, 16));
}

#[test]
fn number_6_values() {
    for (record, position, wrong) in [
        (1, 105, &b"2$05678"[..]),
        (1, 105, b" $05678"),
        (1, 105, b"      1"),
        (1, 106, b"$"),
        (1, 114, b" "),
        (1, 114, b"L"),
        (2, 29, b"07200"),
        (2, 29, b"07006"),
        (2, 29, b"     "),
        (2, 29, b"O7000"),
        (14, 29, b"7000 "),
        (2, 47, b"+"),
        (14, 29, b"07200"),
        (14, 47, b"+"),
        (14, 47, b" "),
        (2, 97, b"7"),
        (2, 97, b"0"),
        (14, 97, b"8"),
        (14, 97, b"A"),
        (2, 120, b" "),
        (14, 120, b"e"),
        (3, 11, b"DE"),
        (3, 11, b"it"),
        (3, 11, b"  "),
        (3, 21, b"00000"),
        (13, 94, b"A"),
        (20, 94, b"p"),
    ] {
        let position_due = match (record, position) {
            (1, 106) => 105,
            (_, position) => position as u8,
        };
        let flow = all_types().with(record, position, wrong);
        let due = refused(6, record as u64, position_due);
        assert_eq!(flow.read(), due, "{record} {position}");
    }
    let flow = two_rents().with(1, 105, b"1E05678");
    assert_eq!(flow.read(), refused(6, 1, 106));
    for (record, position, right) in [
        (3, 11, &b"SM"[..]),
        (3, 21, b"00001"),
        (2, 97, b" "),
        (2, 97, b"1"),
        (2, 97, b"3"),
        (2, 97, b"4"),
        (2, 97, b"5"),
        (14, 97, b"6"),
        (14, 97, b"9"),
        (13, 94, b"P"),
        (20, 94, b"B"),
    ] {
        let flow = all_types().with(record, position, right);
        assert_eq!(flow.read(), accepted(2, 83_050, 21));
    }
}

#[test]
fn number_7_blank() {
    for (record, position, len) in [
        (1, 4, 5),
        (1, 20, 20),
        (3, 15, 1),
        (3, 26, 12),
        (4, 11, 24),
        (5, 11, 30),
        (7, 11, 55),
        (11, 11, 55),
        (15, 11, 24),
        (16, 11, 30),
    ] {
        let flow = all_types().with(record, position, &vec![b' '; len]);
        let due = refused(7, record as u64, position as u8);
        assert_eq!(flow.read(), due);
        let mut last = vec![b' '; len];
        last[len - 1] = b'!';
        let flow = all_types().with(record, position, &last);
        assert_ne!(flow.read(), due);
    }
    // 40, 50 and 51 need no text at all.
    let mut flow = two_rents();
    for record in [5, 6, 7, 12, 13, 14] {
        flow = flow.with(record, 11, &[b' '; 110]);
    }
    assert_eq!(flow.read(), accepted(2, 83_050, 16));
    // Text after the obligatory segment does not make it present.
    let flow = two_rents().with(3, 11, &[b' '; 24]).with(3, 35, b"X");
    assert_eq!(flow.read(), refused(7, 3, 11));
}

#[test]
fn number_8_dates() {
    for wrong in [b"290227", b"310426", b"000326", b"150026", b"151326"] {
        assert_eq!(two_rents().with(1, 14, wrong).read(), refused(8, 1, 14));
        assert_eq!(two_rents().with(2, 23, wrong).read(), refused(8, 2, 23));
        assert_eq!(two_rents().with(9, 23, wrong).read(), refused(8, 9, 23));
    }
}

#[test]
fn number_9_disposition_numbers() {
    for record in 2..16 {
        for wrong in [b"0000000", b"0000003", b"9999999"] {
            let flow = two_rents().with(record, 4, wrong);
            assert_eq!(flow.read(), refused(9, record as u64, 4));
        }
    }
    assert_eq!(two_rents().with(9, 4, b"0000001").read(), refused(9, 9, 4));
    assert_eq!(two_rents().with(8, 4, b"0000002").read(), refused(9, 8, 4));
    assert_eq!(
        two_rents().with(12, 4, b"0000001").read(),
        refused(9, 12, 4)
    );
}

#[test]
fn number_10_differs_from_the_header() {
    assert_eq!(all_types().with(2, 48, b"01235").read(), refused(10, 2, 48));
    assert_eq!(
        all_types().with(14, 48, b"00000").read(),
        refused(10, 14, 48)
    );
    assert_eq!(all_types().with(3, 16, b"11234").read(), refused(10, 3, 16));
    for (position, wrong) in [
        (4, &b"AB124"[..]),
        (4, b"     "),
        (9, b"01235"),
        (9, b"0123 "),
        (14, b"160326"),
        (14, b"      "),
        (14, b"990326"),
        (20, b"RENT-APRIL"),
        (39, b"X"),
        (114, b" "),
    ] {
        let first = if position == 39 { 20 } else { position as u8 };
        let flow = all_types().with(21, position, wrong);
        assert_eq!(flow.read(), refused(10, 21, first));
    }
    // 40-45 are not compared.
    let flow = two_rents().with(16, 40, b"OTHER ");
    assert_eq!(flow.read(), accepted(2, 83_050, 16));
}

#[test]
fn number_11_company_codes() {
    assert_eq!(two_rents().with(9, 92, b"AB124").read(), refused(11, 9, 92));
    assert_eq!(two_rents().with(9, 92, b"    A").read(), refused(11, 9, 92));
    assert_eq!(two_rents().with(2, 92, b"AB12 ").read(), refused(11, 9, 92));
    // Document 02, E4: blanks are a content like any other.
    for record in [2, 9] {
        let flow = two_rents().with(record, 92, b"     ");
        assert_eq!(flow.read(), refused(11, 9, 92));
    }
    let none = two_rents().with(2, 92, b"     ").with(9, 92, b"     ");
    assert_eq!(none.read(), accepted(2, 83_050, 16));
}

#[test]
fn numbers_12_13_14_counts_and_sums() {
    for wrong in [b"0000001", b"0000003", b"0000000", b"9999999"] {
        assert_eq!(two_rents().with(16, 46, wrong).read(), refused(12, 16, 46));
        assert_eq!(all_types().with(21, 46, wrong).read(), refused(12, 21, 46));
    }
    for wrong in [b"000000000083049", b"000000000083051", b"999999999999999"] {
        assert_eq!(two_rents().with(16, 53, wrong).read(), refused(13, 16, 53));
        assert_eq!(all_types().with(21, 53, wrong).read(), refused(13, 21, 53));
    }
    for wrong in [b"000000000000001", b"100000000000000", b"000000000083050"] {
        assert_eq!(two_rents().with(16, 68, wrong).read(), refused(13, 16, 68));
        assert_eq!(all_types().with(21, 68, wrong).read(), refused(13, 21, 68));
    }
    for wrong in [b"0000015", b"0000017", b"0000014", b"0000000"] {
        assert_eq!(two_rents().with(16, 83, wrong).read(), refused(14, 16, 83));
        assert_eq!(all_types().with(21, 83, wrong).read(), refused(14, 21, 83));
    }
}

/// `count` rents of these amounts; the trailer has the text given as total.
fn many(amounts: &[u64], total: &str) -> Flow {
    let mut records = vec![header()];
    for (index, cents) in amounts.iter().enumerate() {
        let number = format!("{:07}", index + 1);
        let mut block = first_rent(&number);
        block[0][33..46].copy_from_slice(format!("{cents:013}").as_bytes());
        records.extend(block);
    }
    let count = format!("{:07}", amounts.len());
    let all = format!("{:07}", records.len() + 1);
    records.push(trailer(&count, total, &all));
    Flow(records)
}

const MAX: u64 = 9_999_999_999_999;

#[test]
fn a_sum_above_15_digits_is_13_whatever_stands_there() {
    let mut amounts = vec![MAX; 100];
    amounts.push(99);
    let flow = many(&amounts, "999999999999999");
    assert_eq!(flow.read(), accepted(101, 999_999_999_999_999, 709));
    amounts[100] = 100;
    for total in ["000000000000000", "999999999999999", "100000000000000"] {
        assert_eq!(many(&amounts, total).read(), refused(13, 709, 53));
    }
    let flow = many(&amounts, "00000000000000A");
    assert_eq!(flow.read(), refused(5, 709, 53));
}

#[test]
fn number_15_no_such_disposition() {
    for k in [0, 3, 4, 9_999_999, u64::MAX] {
        let mut flow = two_rents().bytes();
        assert_eq!(find(&flow, k), Err(refusal(15, 0, 0)));
        assert_eq!(change(&mut flow, k, 1), refused(15, 0, 0));
        assert_eq!(withdraw(&mut flow, k), (refused(15, 0, 0), 1_920));
        assert_eq!(flow, two_rents().bytes());
    }
    // 15 comes before 16 and before 18.
    let mut flow = one_rent().bytes();
    assert_eq!(change(&mut flow, 2, u64::MAX), refused(15, 0, 0));
    assert_eq!(change(&mut flow, 2, 0), refused(15, 0, 0));
    assert_eq!(withdraw(&mut flow, 2), (refused(15, 0, 0), 1_080));
    assert_eq!(withdraw(&mut flow, 0), (refused(15, 0, 0), 1_080));
}

#[test]
fn numbers_16_and_17_limits_of_a_change() {
    let mut flow = two_rents().bytes();
    for cents in [0, MAX + 1, MAX * 2, u64::MAX] {
        assert_eq!(change(&mut flow, 1, cents), refused(16, 0, 0));
        assert_eq!(change(&mut flow, 2, cents), refused(16, 0, 0));
    }
    assert_eq!(flow, two_rents().bytes());
    assert_eq!(change(&mut flow, 1, MAX), accepted(2, MAX + 38_050, 16));
    let mut amounts = vec![MAX; 100];
    amounts.extend([90, 9]);
    let right = many(&amounts, "999999999999999").bytes();
    let records = 2 + 102 * 7;
    let mut flow = right.clone();
    assert_eq!(change(&mut flow, 101, 91), refused(17, 0, 0));
    assert_eq!(change(&mut flow, 102, MAX), refused(17, 0, 0));
    // 16 comes before 17.
    assert_eq!(change(&mut flow, 102, MAX + 1), refused(16, 0, 0));
    assert_eq!(flow, right);
    let limit = 999_999_999_999_999;
    assert_eq!(change(&mut flow, 101, 90), accepted(102, limit, records));
    assert_eq!(flow, right);
    assert_eq!(
        change(&mut flow, 5, MAX - 1),
        accepted(102, limit - 1, records)
    );
    assert_eq!(change(&mut flow, 102, 10), accepted(102, limit, records));
    assert_eq!(change(&mut flow, 5, MAX), refused(17, 0, 0));
}

#[test]
fn number_17_total_of_a_list() {
    let list_of = |cents: u64| {
        let mut amounts = vec![MAX; 100];
        amounts.push(1);
        let flow = many(&amounts, "999999999999901").bytes();
        let mut list = vec![0; flow.len()];
        let (_, len) = write_list(&flow, &mut list);
        list.truncate(len);
        // The last D stands 593 bytes before the end.
        let at = len - 593 + 7;
        list[at..at + 13].copy_from_slice(format!("{cents:013}").as_bytes());
        list
    };
    let mut out = vec![b'#'; 709 * 120];
    let answer = write_flow(&list_of(99), &mut out);
    assert_eq!(answer, (accepted(101, 999_999_999_999_999, 709), 709 * 120));
    let mut out = vec![b'#'; 709 * 120];
    assert_eq!(write_flow(&list_of(100), &mut out), (refused(17, 0, 0), 0));
    assert!(out.iter().all(|&byte| byte == b'#'));
    assert_eq!(write_flow(&list_of(MAX), &mut out), (refused(17, 0, 0), 0));
    // The reader's refusals and 21 come before 17.
    let mut list = list_of(100);
    let last = list.len() - 26;
    list[last] = b'Q';
    assert_eq!(write_flow(&list, &mut out), (refused(6, 708, 94), 0));
    let short = &mut out[..709 * 120 - 1];
    assert_eq!(write_flow(&list, short), (refused(21, 0, 0), 0));
}

#[test]
fn number_18_the_only_disposition() {
    let mut flow = two_rents().bytes();
    let (_, len) = withdraw(&mut flow, 2);
    assert_eq!(withdraw(&mut flow[..len], 1), (refused(18, 0, 0), 1_080));
    assert_eq!(&flow[..len], one_rent().bytes());
    let mut flow = two_rents().bytes();
    let (_, len) = withdraw(&mut flow, 1);
    assert_eq!(withdraw(&mut flow[..len], 1), (refused(18, 0, 0), 1_080));
}

#[test]
fn number_20_items() {
    let mut out = vec![b'#'; 3_000];
    let list = two_rents_list();
    // Every cut inside an item names that item.
    let lens = [
        50, 59, 97, 77, 111, 111, 111, 27, 59, 97, 77, 111, 111, 111, 27,
    ];
    let mut start = 0;
    for (index, len) in lens.into_iter().enumerate() {
        for cut in start + 1..start + len {
            let answer = write_flow(&list[..cut], &mut out);
            assert_eq!(answer, (refused(20, index as u64 + 1, 0), 0));
        }
        start += len;
    }
    assert_eq!(start, list.len());
    // Unknown kinds, at each end, and before any other fault and any room.
    for kind in *b"EFGh014 \0\xff" {
        let mut wrong = list.clone();
        wrong[0] = kind;
        assert_eq!(write_flow(&wrong, &mut out), (refused(20, 1, 0), 0));
        let mut wrong = list.clone();
        wrong.push(kind);
        assert_eq!(write_flow(&wrong, &mut []), (refused(20, 16, 0), 0));
    }
    let mut wrong = list.clone();
    wrong[1..6].fill(b' ');
    wrong.pop();
    assert_eq!(write_flow(&wrong, &mut out), (refused(20, 15, 0), 0));
    assert!(out.iter().all(|&byte| byte == b'#'));
}

#[test]
fn number_21_room() {
    let list = two_rents_list();
    let mut out = vec![b'#'; 1_919];
    assert_eq!(write_flow(&list, &mut out), (refused(21, 0, 0), 0));
    assert_eq!(write_flow(&list, &mut []), (refused(21, 0, 0), 0));
    let mut out = vec![b'#'; 1_235];
    let flow = two_rents().bytes();
    assert_eq!(write_list(&flow, &mut out), (refused(21, 0, 0), 0));
    assert_eq!(write_list(&flow, &mut []), (refused(21, 0, 0), 0));
    assert_eq!(out, [b'#'; 1_235]);
    // In writing 21 comes before the reader's refusals, in reading back after.
    let mut wrong = list.clone();
    wrong[1..6].fill(b' ');
    assert_eq!(write_flow(&wrong, &mut []), (refused(21, 0, 0), 0));
    let wrong = two_rents().with(16, 83, b"0000015").bytes();
    assert_eq!(write_list(&wrong, &mut []), (refused(14, 16, 83), 0));
}

#[test]
fn a_list_of_too_many_items_is_1() {
    // 9,999,999 items and a trailer are a record too many, whatever the room.
    let mut list = vec![b' '; 28 * 9_999_999];
    list.chunks_exact_mut(28).for_each(|item| item[0] = b'S');
    assert_eq!(write_flow(&list, &mut []), (refused(1, 0, 0), 0));
    // One less is only short of room, and one cut short is 20.
    let fits = &list[..28 * 9_999_998];
    assert_eq!(write_flow(fits, &mut []), (refused(21, 0, 0), 0));
    list.pop();
    assert_eq!(write_flow(&list, &mut []), (refused(20, 9_999_999, 0), 0));
}
