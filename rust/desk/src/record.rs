//! A record as a clerk sees it: its 120 positions under a ruler, and a mark.

use std::fmt::Write;

use mav::RECORD_LENGTH;

/// So many positions stand in a row, so that a row fits a terminal of eighty columns.
pub const ROW: usize = 60;

/// The bytes at the positions `first` to `last` of a record, counted from 1 as in document 01.
pub fn field(record: &[u8], first: usize, last: usize) -> &[u8] {
    &record[first - 1..last]
}

/// The type of a record, at 2-3.
pub fn record_type(record: &[u8]) -> &[u8] {
    field(record, 2, 3)
}

/// Bytes as characters. One outside 32 to 126 is shown as a question mark, and never reaches a terminal.
pub fn characters(bytes: &[u8]) -> String {
    let shown = |&byte: &u8| match byte {
        32..=126 => char::from(byte),
        _ => '?',
    };
    bytes.iter().map(shown).collect()
}

/// A field as text, without the blanks around it.
pub fn text(field: &[u8]) -> String {
    characters(field).trim().to_owned()
}

/// A record in rows under a ruler, between bars that show where its blanks end. A position from 1 to 120 is
/// marked under its row; there is no position 0.
pub fn drawn(record: &[u8], position: u64) -> String {
    let mut drawn = String::new();
    for first in (1..=RECORD_LENGTH).step_by(ROW) {
        let last = first + ROW - 1;
        let ruler: String = (first..=last).map(tick).collect();
        let row = characters(field(record, first, last));
        let _ = writeln!(drawn, "   {ruler}\n  |{row}|");
        if let Ok(position @ 1..) = usize::try_from(position) {
            if (first..=last).contains(&position) {
                let before = position - first;
                let _ = writeln!(drawn, "   {:before$}^ {position}", "");
            }
        }
    }
    drawn
}

/// What the ruler has at a position: every tenth is numbered by its tens, every fifth has a plus.
fn tick(position: usize) -> char {
    let tens = (position + 1) / 10;
    let digit = |digit: usize| char::from(b'0' + (digit % 10) as u8);
    match position % 10 {
        0 => digit(position / 10),
        9 if tens >= 10 => digit(tens / 10),
        5 => '+',
        _ => '-',
    }
}

#[cfg(test)]
mod tests {
    use super::*;

    /// A record whose byte at each position tells the position's last digit.
    fn digits() -> Vec<u8> {
        (1..=120).map(|position| b'0' + position % 10).collect()
    }

    #[test]
    fn a_position_is_marked_under_its_byte() {
        let ruler_1 = "----+----1----+----2----+----3----+----4----+----5----+----6";
        let ruler_2 = "----+----7----+----8----+----9----+---10----+---11----+---12";
        let row = "123456789012345678901234567890123456789012345678901234567890";
        assert_eq!(
            drawn(&digits(), 4),
            format!("   {ruler_1}\n  |{row}|\n      ^ 4\n   {ruler_2}\n  |{row}|\n")
        );
        assert_eq!(
            drawn(&digits(), 61),
            format!("   {ruler_1}\n  |{row}|\n   {ruler_2}\n  |{row}|\n   ^ 61\n")
        );
        assert_eq!(
            drawn(&digits(), 0),
            format!("   {ruler_1}\n  |{row}|\n   {ruler_2}\n  |{row}|\n")
        );
    }

    #[test]
    fn every_position_is_marked_in_its_column() {
        for position in 1..=120 {
            let drawn = drawn(&digits(), position);
            let mark = drawn.lines().find(|line| line.contains('^')).unwrap();
            let column = (position as usize - 1) % 60;
            assert_eq!(mark.find('^'), Some(3 + column));
            assert!(mark.ends_with(&format!("^ {position}")));
        }
    }

    #[test]
    fn a_byte_that_is_no_plain_character_cannot_reach_the_terminal() {
        let mut record = vec![b' '; 120];
        record[..4].copy_from_slice(&[27, b'[', 0, 255]);
        assert!(drawn(&record, 1).contains("|?[??  "));
        assert_eq!(text(&record[..6]), "?[??");
    }
}
