//! The field rules, from document 01 and document 02, E5.

use oracle::fields::{amount, date, digits, is_amount, is_blank, is_equal, write_digits, Date};
use oracle::vectors::{field_cases, field_files};

#[test]
fn digits_take_one_to_fifteen() {
    assert_eq!(digits(b""), Err(5));
    assert_eq!(digits(b"0"), Ok(0));
    assert_eq!(digits(b"83050"), Ok(83_050));
    assert_eq!(digits(b"0000016"), Ok(16));
    assert_eq!(digits(b"999999999999999"), Ok(999_999_999_999_999));
    assert_eq!(digits(b"0000000000000000"), Err(5));
    assert_eq!(digits(b"99999999999999999999999999"), Err(5));
}

#[test]
fn digits_are_the_bytes_48_to_57_alone() {
    for byte in 0..=255 {
        let due = match byte {
            48..=57 => Ok(u64::from(byte) - 48),
            _ => Err(5),
        };
        assert_eq!(digits(&[byte]), due, "byte {byte}");
        let wide = [b'1', byte, b'3'];
        assert_eq!(digits(&wide), due.map(|d| 103 + 10 * d), "byte {byte}");
    }
}

#[test]
fn amounts_take_thirteen() {
    assert_eq!(amount(b"0000000045000"), Ok(45_000));
    assert_eq!(amount(b"0000000000001"), Ok(1));
    assert_eq!(amount(b"9999999999999"), Ok(9_999_999_999_999));
    for wrong in [
        &b""[..],
        b"45000",
        b"000000045000",
        b"00000000045000",
        b"        45000",
        b"-000000045000",
        b"+000000045000",
        b"0000000450.00",
        b"             ",
    ] {
        assert_eq!(amount(wrong), Err(5));
    }
}

/// Document 02, E5: thirteen zeros are 25, and any other fault is 5 first.
#[test]
fn an_amount_is_above_zero() {
    assert_eq!(amount(b"0000000000000"), Err(25));
    for place in 0..13 {
        let mut single = *b"0000000000000";
        single[place] = b'1';
        assert_eq!(amount(&single), Ok(10_u64.pow(12 - place as u32)));
        for byte in 0..=255 {
            single[place] = byte;
            let due = match byte {
                b'0' => Err(25),
                b'1'..=b'9' => Ok(u64::from(byte - b'0') * 10_u64.pow(12 - place as u32)),
                _ => Err(5),
            };
            assert_eq!(amount(&single), due, "byte {byte} at {place}");
        }
    }
    for len in (0..=12).chain(14..=30) {
        assert_eq!(amount(&vec![b'0'; len]), Err(5), "{len} zeros");
    }
    assert_eq!(amount(&[0; 13]), Err(5));
    assert_eq!(amount(b"OOOOOOOOOOOOO"), Err(5));
    assert_eq!(amount(b"0000000000.00"), Err(5));
    // Other digits may be zero.
    assert_eq!(digits(b"0000000000000"), Ok(0));
    assert_eq!(digits(b"000000000000000"), Ok(0));
    assert_eq!(digits(b"0000000"), Ok(0));
}

#[test]
fn so_many_cents_are_an_amount() {
    for cents in [1, 2, 45_000, 9_999_999_999_998, 9_999_999_999_999] {
        assert!(is_amount(cents));
    }
    for cents in [0, 10_000_000_000_000, 1 << 63, u64::MAX] {
        assert!(!is_amount(cents));
    }
}

#[test]
fn dates_are_true_calendar_days() {
    let day = |day, month, year| Ok(Date { day, month, year });
    assert_eq!(date(b"290228"), day(29, 2, 2028));
    assert_eq!(date(b"290227"), Err(8));
    assert_eq!(date(b"290200"), day(29, 2, 2000));
    assert_eq!(date(b"290296"), day(29, 2, 2096));
    assert_eq!(date(b"290299"), Err(8));
    assert_eq!(date(b"010100"), day(1, 1, 2000));
    assert_eq!(date(b"311299"), day(31, 12, 2099));
    for wrong in [b"300228", b"000126", b"010026", b"011326", b"320126"] {
        assert_eq!(date(wrong), Err(8));
    }
    for (month, last) in [31, 28, 31, 30, 31, 30, 31, 31, 30, 31, 30, 31]
        .into_iter()
        .enumerate()
    {
        let month = month + 1;
        let text = format!("{last:02}{month:02}27");
        assert_eq!(date(text.as_bytes()), day(last, month as u8, 2027));
        let text = format!("{:02}{month:02}27", last + 1);
        assert_eq!(date(text.as_bytes()), Err(8));
    }
}

#[test]
fn a_date_of_the_wrong_length_or_not_digits_is_5() {
    for wrong in [
        &b""[..],
        b"      ",
        b"15032",
        b"1503266",
        b"15032026",
        b"3213 6",
        b"0000/0",
        b"0000:0",
        b"99",
    ] {
        assert_eq!(date(wrong), Err(5));
    }
}

#[test]
fn the_digit_writer_fills_any_length() {
    let written = |len, value| {
        let mut out = vec![b'?'; len];
        write_digits(&mut out, value);
        String::from_utf8(out).unwrap()
    };
    assert_eq!(written(0, 7), "");
    assert_eq!(written(1, 83_050), "0");
    assert_eq!(written(5, 83_050), "83050");
    assert_eq!(written(4, 83_050), "3050");
    assert_eq!(written(15, 83_050), "000000000083050");
    assert_eq!(written(7, 10_000_000), "0000000");
    assert_eq!(written(20, u64::MAX), "18446744073709551615");
    assert_eq!(written(19, u64::MAX), "8446744073709551615");
    assert_eq!(written(24, u64::MAX), "000018446744073709551615");
}

#[test]
fn blank_and_equal() {
    assert!(is_blank(b""));
    assert!(is_blank(b"     "));
    assert!(!is_blank(b"    !"));
    assert!(!is_blank(b"\x1f    "));
    assert!(is_equal(b"", b""));
    assert!(is_equal(b"AB123", b"AB123"));
    assert!(!is_equal(b"AB123", b"AB124"));
    assert!(!is_equal(b"AB123", b"AB12"));
    assert!(!is_equal(b"AB123", b"AB123 "));
}

/// Amounts of the vectors about zero.
const AMOUNTS: [(&str, &str); 22] = [
    ("0000000000000", "refused 25"),
    ("0000000000001", "value 1"),
    ("0000000000009", "value 9"),
    ("0000000000010", "value 10"),
    ("0000001000000", "value 1000000"),
    ("1000000000000", "value 1000000000000"),
    ("9000000000000", "value 9000000000000"),
    ("9999999999999", "value 9999999999999"),
    ("0", "refused 5"),
    ("000000000000", "refused 5"),
    ("00000000000000", "refused 5"),
    ("000000000000000", "refused 5"),
    ("00000000000000000000000000", "refused 5"),
    ("000000000000 ", "refused 5"),
    (" 000000000000", "refused 5"),
    ("000000000000a", "refused 5"),
    ("000000000000O", "refused 5"),
    ("000000:000000", "refused 5"),
    ("-000000000000", "refused 5"),
    ("0000000000.00", "refused 5"),
    ("            0", "refused 5"),
    ("             ", "refused 5"),
];

#[test]
fn vectors_keep_their_format() {
    let (input, output) = field_files();
    assert!(input.len() < 60_000);
    let lines: Vec<&str> = input.lines().collect();
    assert!(lines.iter().all(|line| line.len() < 100));
    assert_eq!(output.lines().count(), lines.len() + 1);
    let last = "six digits: dates 36525 refused-8 963475 refused-5 0";
    assert_eq!(output.lines().last(), Some(last));
    let of = |line: &str| {
        let at = lines.iter().position(|&l| l == line);
        output.lines().nth(at.expect(line)).unwrap()
    };
    assert_eq!(of("n3833303530"), "value 83050");
    assert_eq!(of("n"), "refused 5");
    assert_eq!(of("d323930323238"), "day 29 month 2 year 2028");
    assert_eq!(of("d323930323237"), "refused 8");
    assert_eq!(of("a"), "refused 5");
    let of_text = |text: &str| {
        let hex: String = text.bytes().map(|byte| format!("{byte:02x}")).collect();
        of(&format!("a{hex}"))
    };
    for (text, due) in AMOUNTS {
        assert_eq!(of_text(text), due, "'{text}'");
    }
    assert_eq!(of("n30303030303030303030303030"), "value 0");
    assert_eq!(of("w00000000000001446a"), "");
    assert_eq!(of("w05000000000001446a"), "83050");
    assert_eq!(of("w02ffffffffffffffff"), "15");
    assert_eq!(of("b"), "yes");
    assert_eq!(of("b1f"), "no");
    assert_eq!(of("e00"), "yes");
    assert_eq!(of("e0541422031324142203132"), "yes");
    assert_eq!(of("e0541422031322042203132"), "no");
    assert!(field_cases()
        .iter()
        .all(|case| b"nadwbe".contains(&case.rule)));
}
