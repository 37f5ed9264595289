//! What calls leave in memory: a refused call nothing changed, an accepted one only what is its own.

mod common;

use std::fs;

use common::{differences, positions, root, sample};

const FILES: [&str; 29] = [
    "two-rents.flow",
    "two-rents.list",
    "two-rents-recall.flow",
    "two-rents-recall.list",
    "two-rents-filler.flow",
    "one-rent.flow",
    "forty-rents.flow",
    "forty-rents.list",
    "last-night.flow",
    "tonight.flow",
    "refused-01-length.flow",
    "refused-02-byte.flow",
    "refused-03-type.flow",
    "refused-03-empty.list",
    "refused-04-ended.flow",
    "refused-05-digits.flow",
    "refused-06-value.flow",
    "refused-07-blank.flow",
    "refused-08-date.flow",
    "refused-09-block-twice.flow",
    "refused-10-header.flow",
    "refused-11-company.flow",
    "refused-12-dispositions.flow",
    "refused-13-total.flow",
    "refused-14-records.flow",
    "refused-17-total.list",
    "refused-20-item.list",
    "refused-22-kind.flow",
    "refused-25-nothing.flow",
];

#[test]
fn every_sample_is_tried() {
    let entries = fs::read_dir(root().join("samples")).expect("the samples");
    let mut given: Vec<_> = entries
        .map(|entry| entry.expect("a sample").file_name())
        .filter(|name| name != "README.md")
        .collect();
    given.sort();
    let mut tried = FILES;
    tried.sort();
    assert_eq!(given, tried);
}

/// Bytes of which no two neighbours are alike, to tell what was written.
fn marked(length: usize) -> Vec<u8> {
    (0..length).map(|i| 0x80 | (i % 127) as u8).collect()
}

/// The output after a call on it, held against what it was: as before where refused, and beyond the
/// length written where accepted. Gives whether it was refused.
fn output_kept(
    call: impl Fn(&[u8], &mut [u8]) -> Result<mav::Written, mav::Refusal>,
    bytes: &[u8],
    room: usize,
) -> bool {
    let before = marked(room);
    let mut out = before.clone();
    let told = call(bytes, &mut out);
    let kept_from = told.map_or(0, |written| written.length);
    assert_eq!(out[kept_from..], before[kept_from..]);
    told.is_err()
}

#[test]
fn refused_outputs_are_as_before() {
    let mut refused = [0, 0];
    for file in FILES {
        let bytes = sample(file);
        for room in [
            0, 1, 119, 120, 1_235, 1_236, 1_919, 1_920, 1_927, 50_000, 90_000,
        ] {
            refused[0] += u32::from(output_kept(mav::write, &bytes, room));
            refused[1] += u32::from(output_kept(mav::read_back, &bytes, room));
        }
    }
    // Of 29 files in 11 rooms three are lists that are written: two of two rents in the four largest rooms,
    // forty in the two largest.
    assert_eq!(refused[0], 29 * 11 - 2 * 4 - 2);
    // Seven are flows that are read back: three of two rents from 1,236 bytes on, one rent from 643 on, forty
    // rents from 31,656 on, and twice eight from 4,933 on.
    assert_eq!(refused[1], 29 * 11 - 3 * 6 - 7 - 2 - 2 * 2);
}

#[test]
fn refused_withdrawals_leave_the_flow() {
    let mut refused = 0;
    for file in FILES {
        let before = sample(file);
        for k in [0, 1, 2, 3, 40, 41, u64::MAX] {
            let mut flow = before.clone();
            let mut memory = before.clone();
            let told = mav::withdraw(&mut flow, k);
            let in_place = mav::withdraw_in_place(&mut memory, k);
            assert_eq!(told, in_place.map(|left| left.accepted));
            if told.is_err() {
                assert_eq!(flow, before, "{file} {k}");
                assert_eq!(memory, before, "{file} {k}");
                refused += 1;
            }
        }
    }
    // 1 and 2 of the three flows of two rents, 1, 2, 3 and 40 of forty, and twice 1, 2 and 3 of eight, are
    // withdrawn.
    assert_eq!(refused, 29 * 7 - 3 * 2 - 4 - 2 * 3);
}

#[test]
fn refused_changes_leave_the_flow() {
    let mut refused = 0;
    for file in FILES {
        let before = sample(file);
        for k in [0, 1, 2, 3, 40, 41, u64::MAX] {
            for cents in [0, 1, mav::MAX_AMOUNT, mav::MAX_AMOUNT + 1, u64::MAX] {
                let mut flow = before.clone();
                if mav::change(&mut flow, k, cents).is_err() {
                    assert_eq!(flow, before, "{file} {k} {cents}");
                    refused += 1;
                }
            }
        }
    }
    // The same dispositions, and the one of one rent, take two of the five amounts.
    assert_eq!(refused, 29 * 7 * 5 - 2 * 17);
}

#[test]
fn a_change_writes_only_its_two_fields() {
    let before = sample("two-rents-filler.flow");
    let mut flow = before.clone();
    // 1111111111111 + 38050 = 1111111149161.
    let told = mav::change(&mut flow, 1, 1_111_111_111_111);
    assert_eq!(told, Ok(common::accepted(2, 1_111_111_149_161, 16)));
    let amount = positions(2, 34, 46);
    let total = positions(16, 53, 67);
    assert_eq!(&flow[amount.clone()], b"1111111111111");
    assert_eq!(&flow[total.clone()], b"001111111149161");
    for index in differences(&flow, &before) {
        assert!(
            amount.contains(&index) || total.contains(&index),
            "byte {index}"
        );
    }
}

#[test]
fn a_withdrawal_writes_numbers_counts_sum_and_blanks() {
    let before = sample("two-rents-filler.flow");
    let mut flow = before.clone();
    let left = mav::withdraw_in_place(&mut flow, 1).expect("two dispositions");
    assert_eq!(left.length, 1_080);
    assert_eq!(flow[1_080..], [b' '; 840]);
    let mut due = [&before[..120], &before[960..]].concat();
    for record in 2..=8 {
        due[positions(record, 4, 10)].copy_from_slice(b"0000001");
    }
    due[positions(9, 46, 52)].copy_from_slice(b"0000001");
    due[positions(9, 53, 67)].copy_from_slice(b"000000000038050");
    due[positions(9, 83, 89)].copy_from_slice(b"0000009");
    assert_eq!(flow[..1_080], due);
}
