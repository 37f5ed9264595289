//! The ten worked examples of document 01, and the errors it names.

mod common;

use common::*;
use oracle::amend::{change, withdraw};
use oracle::list::{is_canonical, write_flow, write_list};
use oracle::reader::read;
use oracle::samples;

/// EF whole, as document 01 gives it.
const TRAILER: &str = " EFAB12301234150326RENT-MARCH                \
    0000002000000000083050000000000000000\
    0000016                        E      ";

#[test]
fn the_samples_are_the_example() {
    assert_eq!(samples::two_rents().flow(), two_rents().bytes());
    assert_eq!(samples::two_rents().list(), two_rents_list());
    assert_eq!(two_rents().bytes().len(), 1_920);
    assert_eq!(two_rents().read(), accepted(2, 83_050, 16));
    assert!(is_canonical(&two_rents().bytes()));
}

#[test]
fn every_sample_answers_as_due() {
    for sample in samples::samples() {
        assert_eq!(sample.answer().to_string(), sample.due, "{}", sample.file);
    }
}

#[test]
fn example_1_the_trailer_is_what_the_list_encodes() {
    assert_eq!(TRAILER.len(), 120);
    let mut out = vec![b'#'; 2_000];
    let answer = write_flow(&two_rents_list(), &mut out);
    assert_eq!(answer, (accepted(2, 83_050, 16), 1_920));
    assert_eq!(&out[1_800..1_920], TRAILER.as_bytes());
    assert_eq!(&out[..1_920], two_rents().bytes());
    assert_eq!(&out[1_920..], [b'#'; 80]);
}

#[test]
fn example_2_amount_changed() {
    let mut flow = two_rents().bytes();
    assert_eq!(change(&mut flow, 2, 40_000), accepted(2, 85_000, 16));
    let due = two_rents()
        .with(9, 34, b"0000000040000")
        .with(16, 53, b"000000000085000");
    assert_eq!(flow, due.bytes());
    assert_eq!(read(&flow), accepted(2, 85_000, 16));
}

#[test]
fn example_3_first_rent_withdrawn() {
    let mut flow = two_rents().bytes();
    assert_eq!(withdraw(&mut flow, 1), (accepted(1, 38_050, 9), 1_080));
    let mut due = vec![header()];
    due.extend(second_rent("0000001"));
    due.push(trailer("0000001", "000000000038050", "0000009"));
    assert_eq!(&flow[..1_080], due.concat());
    assert_eq!(&flow[1_080..], [b' '; 840]);
    assert_eq!(read(&flow[..1_080]), accepted(1, 38_050, 9));
}

#[test]
fn example_4_empty_flow() {
    assert_eq!(read(b""), refused(1, 0, 0));
}

#[test]
fn example_5_header_alone() {
    assert_eq!(read(&header()), refused(4, 2, 0));
}

#[test]
fn example_6_header_then_trailer() {
    let end = trailer("0000000", "000000000000000", "0000002");
    assert_eq!(read(&[header(), end].concat()), refused(3, 2, 2));
}

#[test]
fn example_7_leap_day() {
    let leap = two_rents().with(2, 23, b"290228");
    assert_eq!(leap.read(), accepted(2, 83_050, 16));
    let common = two_rents().with(2, 23, b"290227");
    assert_eq!(common.read(), refused(8, 2, 23));
}

#[test]
fn example_8_six_59() {
    // IM, 14, 16, 20, 30, 40, five 59 at 7 to 11, the sixth at 12.
    assert_eq!(all_types().read(), accepted(2, 83_050, 21));
    let six = all_types().insert(12, detail("59", "0000001"));
    assert_eq!(six.read(), refused(3, 12, 2));
}

#[test]
fn example_9_list_of_one() {
    let mut list = vec![0; 2_000];
    let (_, len) = write_list(&one_rent().bytes(), &mut list);
    assert_eq!(len, 643);
    let mut out = vec![0; 2_000];
    assert_eq!(write_flow(&list[..643], &mut out).1, 1_080);
    assert_eq!(out[..1_080], one_rent().bytes());
}

#[test]
fn example_10_withdrawing_the_only_one() {
    let mut flow = one_rent().bytes();
    assert_eq!(withdraw(&mut flow, 1), (refused(18, 0, 0), 1_080));
    assert_eq!(flow, one_rent().bytes());
}

#[test]
fn a_block_copied_twice_is_refused_though_the_trailer_agrees() {
    let mut records = vec![header()];
    records.extend(first_rent("0000001"));
    records.extend(first_rent("0000001"));
    records.extend(second_rent("0000002"));
    records.push(trailer("0000003", "000000000128050", "0000023"));
    assert_eq!(Flow(records).read(), refused(9, 9, 4));
    let mut records = vec![header()];
    records.extend(first_rent("0000001"));
    records.extend(second_rent("0000002"));
    records.extend(second_rent("0000002"));
    records.push(trailer("0000003", "000000000121100", "0000023"));
    assert_eq!(Flow(records).read(), refused(9, 16, 4));
}

/// Withdrawals from either end and from the middle, of dispositions longer
/// and shorter than those after them, leave every kept record once.
#[test]
fn withdrawal_moves_later_records_up_in_order() {
    let numbers = ["0000001", "0000002", "0000003", "0000004"];
    let blocks: Vec<Vec<Vec<u8>>> = (0..4).map(|i| long_rent(numbers[i], i)).collect();
    let flow = |chosen: &[usize]| {
        let mut records = vec![header()];
        let mut cents = 0;
        for (place, &i) in chosen.iter().enumerate() {
            records.extend(blocks[i].iter().map(|record| {
                let mut record = record.clone();
                record[3..10].copy_from_slice(numbers[place].as_bytes());
                record
            }));
            cents += 100 * 10_u64.pow(i as u32);
        }
        let count = format!("{:07}", chosen.len());
        let total = format!("{cents:015}");
        let all = format!("{:07}", records.len() + 1);
        records.push(trailer(&count, &total, &all));
        records.concat()
    };
    for gone in 0..4 {
        let mut buffer = flow(&[0, 1, 2, 3]);
        let kept: Vec<usize> = (0..4).filter(|&i| i != gone).collect();
        let due = flow(&kept);
        let (answer, len) = withdraw(&mut buffer, gone as u64 + 1);
        let cents = 111_100 - 100 * 10_u64.pow(gone as u32);
        assert_eq!(answer, accepted(3, cents, due.len() as u64 / 120));
        assert_eq!(len, due.len());
        assert_eq!(&buffer[..len], due);
        assert!(buffer[len..].iter().all(|&byte| byte == b' '));
    }
}

/// A rent of 8 to 11 records with its own texts.
fn long_rent(number: &str, index: usize) -> Vec<Vec<u8>> {
    let cents = format!("{:013}", 100 * 10_u64.pow(index as u32));
    let name = format!("STUDENTE {index}");
    let mut records = vec![
        opening(number, &cents, "S0099"),
        account(number),
        creditor(number),
        debtor(number, &name, ""),
        address(number, &name),
    ];
    for line in 0..=(index + 2) % 4 {
        let text = format!("{name} VOCE {line}");
        records.push(row(&[(2, "59"), (4, number), (11, &text)]));
    }
    records.push(reference(number, &name));
    records.push(closing(number));
    records
}

#[test]
fn either_kind_of_detail_excludes_the_other() {
    let after_50 = two_rents().insert(7, detail("59", "0000001"));
    assert_eq!(after_50.read(), refused(3, 7, 2));
    let second_50 = two_rents().insert(7, detail("50", "0000001"));
    assert_eq!(second_50.read(), refused(3, 7, 2));
    let after_59 = all_types().with(11, 2, b"50");
    assert_eq!(after_59.read(), refused(3, 11, 2));
}

#[test]
fn nothing_is_written_before_the_last_item_is_judged() {
    let mut list = two_rents_list();
    let last = list.len() - 26;
    list[last] = b'Q';
    let mut out = vec![b'#'; 1_920];
    assert_eq!(write_flow(&list, &mut out), (refused(6, 15, 94), 0));
    assert_eq!(out, [b'#'; 1_920]);
}

#[test]
fn the_lowest_record_comes_before_the_lowest_number() {
    // Number 6 at the lower record, numbers 2 and 3 at the one after it.
    let flow = two_rents().with(2, 120, b"L").with(3, 50, b"\x7f");
    assert_eq!(flow.read(), refused(6, 2, 120));
    let flow = two_rents().with(9, 92, b"AB124").with(10, 2, b"30");
    assert_eq!(flow.read(), refused(11, 9, 92));
}
