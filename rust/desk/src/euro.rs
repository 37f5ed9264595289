//! Amounts and numbers as clerks write and read them. All of it is done on digits and whole cents.

/// The cents of an amount in euro: `450`, `450,00` or `450.00`, and nothing else. There is no sign, no blank,
/// no point between thousands and no needless zero in front.
///
/// An amount beyond what 64 bits hold is given as the largest number: the library refuses both by 16.
pub fn read(text: &str) -> Option<u64> {
    let (whole, cents) = match text.split_once([',', '.']) {
        Some((whole, cents)) => (whole, Some(cents)),
        None => (text, None),
    };
    let needless_zero = whole.len() > 1 && whole.starts_with('0');
    if needless_zero || cents.is_some_and(|cents| cents.len() != 2) {
        return None;
    }
    let cents = cents.map_or(Some(0), number)?;
    is_digits(whole).then(|| {
        let euros = number(whole).unwrap_or(u64::MAX);
        euros.saturating_mul(100).saturating_add(cents)
    })
}

/// The number of a text of digits, if 64 bits hold it.
pub fn number(text: &str) -> Option<u64> {
    is_digits(text).then(|| text.parse().ok())?
}

fn is_digits(text: &str) -> bool {
    !text.is_empty() && text.bytes().all(|byte| byte.is_ascii_digit())
}

/// An amount in euro, as `1.234.567,89`.
pub fn shown(cents: impl Into<u128>) -> String {
    let cents = cents.into();
    format!("{},{:02}", grouped(cents / 100), cents % 100)
}

/// A number with a point between thousands, as `1.234.567`.
pub fn grouped(number: impl Into<u128>) -> String {
    let digits = number.into().to_string();
    let mut grouped = String::new();
    for (index, digit) in digits.chars().enumerate() {
        if index > 0 && (digits.len() - index) % 3 == 0 {
            grouped.push('.');
        }
        grouped.push(digit);
    }
    grouped
}

#[cfg(test)]
mod tests {
    use super::*;

    #[test]
    fn amounts_are_read_in_three_forms() {
        assert_eq!(read("450"), Some(45_000));
        assert_eq!(read("450,00"), Some(45_000));
        assert_eq!(read("450.00"), Some(45_000));
        assert_eq!(read("0,05"), Some(5));
        assert_eq!(read("0"), Some(0));
        assert_eq!(read("0.00"), Some(0));
        assert_eq!(read("99999999999,99"), Some(9_999_999_999_999));
        // Cents that no binary fraction has.
        assert_eq!(read("1234567890,29"), Some(123_456_789_029));
    }

    #[test]
    fn anything_else_is_no_amount() {
        for text in [
            "", ",", ".", "450,", "450.", ",50", ".50", "450,5", "450,500", "1.450,00", "1,450.00",
            "1.450", "+450", "-450", " 450", "450 ", "450 EUR", "4e2", "0450", "00", "00,50",
            "450,0x", "450,-1", "450,,0", "450,00,", "٤٥٠", "450,٠٠", "0x10", "450\n", "NaN",
            "inf",
        ] {
            assert_eq!(read(text), None, "{text:?}");
        }
    }

    #[test]
    fn what_is_too_large_stays_too_large() {
        assert_eq!(read("100000000000,00"), Some(10_000_000_000_000));
        assert_eq!(read("184467440737095516,16"), Some(u64::MAX));
        assert_eq!(read("184467440737095516,15"), Some(u64::MAX));
        assert_eq!(read("99999999999999999999999999"), Some(u64::MAX));
        assert_eq!(number("18446744073709551615"), Some(u64::MAX));
        assert_eq!(number("18446744073709551616"), None);
    }

    #[test]
    fn amounts_are_shown_with_points_and_a_comma() {
        assert_eq!(shown(0_u64), "0,00");
        assert_eq!(shown(5_u64), "0,05");
        assert_eq!(shown(45_000_u64), "450,00");
        assert_eq!(shown(123_456_789_u64), "1.234.567,89");
        assert_eq!(shown(100_000_u64), "1.000,00");
        assert_eq!(grouped(999_u64), "999");
        assert_eq!(grouped(5_000_u64), "5.000");
    }
}
